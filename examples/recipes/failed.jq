# What failed, by a JSON report, one scenario a line: the file, the line by which it is chosen, and its name. A feature, a rule or
# the run whose own hooks and cleanups didn't pass is named, too; a rule by the line of its heading. What steers a terminal is
# escaped, such as \x1b or \u{202e}, and a line feed is \n. No line is a command of a CI, which begins with `::`, or has `##[` or
# `##vso[` in it.
def is_bad: . == "failed" or . == "memory";
# Control characters, those that end a line, and those that turn the direction of writing.
def controls: "[\\p{Cc}\\x{61c}\\x{200e}\\x{200f}\\x{2028}-\\x{202e}\\x{2066}-\\x{2069}]";
def hex: if . < 16 then "" else (. / 16 | floor | hex) end + "0123456789abcdef"[. % 16:. % 16 + 1];
def escape: explode[0] | if . == 10 then "\\n" elif . < 16 then "\\x0" + hex elif . < 160 then "\\x" + hex else "\\u{" + hex + "}" end;
def escaped($which): if test($which) then explode | map([.] | implode | if test($which) then escape else . end) | join("") else . end;
def visible: escaped(controls);
def no_command: sub("^(?<spaces>[^!-~]*)::"; "\(.spaces):\\x3a") | gsub("##(?<word>[A-Za-z]*)\\["; "##\(.word)\\x5b");

(.features[] | (.source | visible) as $file
    | (select(.around | is_bad) | "\($file):\(.line): \(.name | visible) (hooks and cleanups)"),
      ((.rules // [])[] | select(.around | is_bad) | "\($file):\(.line): (hooks and cleanups of the rule)"),
      (.scenarios[] | select(.status | is_bad) | "\($file):\(.line): \(.name | visible)")
    | no_command),
(select(.run | is_bad) | "(hooks and cleanups of the run)")

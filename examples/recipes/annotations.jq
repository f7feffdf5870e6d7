# GitHub's annotations, by a JSON report: one for each step that failed, is undefined or is memory, at its line, and one for
# hooks and cleanups that didn't pass, at the heading of their scenario, rule or feature. What steers a terminal is escaped,
# such as \x1b or \u{202e}, and a line feed as GitHub asks for. No text has a command of a CI in it, such as `##[` or `##vso[`.
# Control characters, those that end a line, and those that turn the direction of writing.
def controls: "[\\p{Cc}\\x{61c}\\x{200e}\\x{200f}\\x{2028}-\\x{202e}\\x{2066}-\\x{2069}]";
def hex: if . < 16 then "" else (. / 16 | floor | hex) end + "0123456789abcdef"[. % 16:. % 16 + 1];
def escape: explode[0] | if . == 10 then "\\n" elif . < 16 then "\\x0" + hex elif . < 160 then "\\x" + hex else "\\u{" + hex + "}" end;
def escaped($which): if test($which) then explode | map([.] | implode | if test($which) then escape else . end) | join("") else . end;
def data: escaped("(?!\n)" + controls) | gsub("##(?<word>[A-Za-z]*)\\["; "##\(.word)\\x5b") | gsub("%"; "%25") | gsub("\n"; "%0A");
def property: data | gsub(":"; "%3A") | gsub(","; "%2C");
def error($file; $line; $title; $text): "::error file=\($file | property),line=\($line),title=\($title | property)::\($text | data)";
def is_bad: . == "failed" or . == "undefined" or . == "memory";

(.features[] | .source as $file
    | (.scenarios[] | "\(.keyword): \(.name)" as $title
        | (.steps[] | select(.status | is_bad)
            | error($file; .line; $title; "\(.keyword) \(.text) ... \(.status)" + (if .reason then ": \(.reason)" else "" end))),
          (select(.around | is_bad) | error($file; .line; $title; "hooks and cleanups of the scenario ... \(.around)"))),
      ("Feature: \(.name)" as $title | (.rules // [])[] | select(.around | is_bad)
        | error($file; .line; $title; "hooks and cleanups of the rule ... \(.around)")),
      (select(.around | is_bad) | error($file; .line; "Feature: \(.name)"; "hooks and cleanups of the feature ... \(.around)"))),
(select(.run | is_bad) | "::error title=gherkin_run::hooks and cleanups of the run ... \(.run)")

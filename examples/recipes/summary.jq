# A summary in Markdown, by a JSON report: the counts, and what failed. In names only letters, digits and spaces stay as they are, so
# that nothing in them is Markdown. What steers a terminal is escaped, such as \x1b or \u{202e}, and a line feed is \n.
def is_plain: . == 32 or (. >= 48 and . <= 57) or (. >= 65 and . <= 90) or (. >= 97 and . <= 122) or . > 159;
# Control characters, those that end a line, and those that turn the direction of writing.
def controls: "[\\p{Cc}\\x{61c}\\x{200e}\\x{200f}\\x{2028}-\\x{202e}\\x{2066}-\\x{2069}]";
def hex: if . < 16 then "" else (. / 16 | floor | hex) end + "0123456789abcdef"[. % 16:. % 16 + 1];
def escape: explode[0] | if . == 10 then "\\n" elif . < 16 then "\\x0" + hex elif . < 160 then "\\x" + hex else "\\u{" + hex + "}" end;
def escaped($which): if test($which) then explode | map([.] | implode | if test($which) then escape else . end) | join("") else . end;
def text: escaped(controls) | explode | map(if is_plain then [.] | implode else "&#\(.);" end) | join("");
def counts($noun; $names): .[$noun] as $counts | "| \($noun) | " + ($names | map($counts[.] // "" | tostring) | join(" | ")) + " |";
def is_bad: . == "failed" or . == "undefined" or . == "memory";
["passed", "failed", "skipped", "undefined", "untested", "memory"] as $names

| "| | " + ($names | join(" | ")) + " |",
"|" + ([range(7)] | map("---|") | join("")),
(.summary | counts("features"; $names), counts("scenarios"; $names), counts("steps"; $names)),
"",
(.features[] | .source as $file
    | (.scenarios[] | select((.status | is_bad) or any(.steps[].status; is_bad))
        | "- \($file | text):\(.line): \(.keyword): \(.name | text): **\(.status)**",
          (.steps[] | select(.status | is_bad)
            | "  - line \(.line): \(.keyword) \(.text | text): \(.status)" + (if .reason then ", \(.reason)" else "" end)),
          (select(.around | is_bad) | "  - hooks and cleanups: \(.around)")),
      ((.rules // [])[] | select(.around | is_bad) | "- \($file | text):\(.line): Rule: hooks and cleanups: **\(.around)**"),
      (select(.around | is_bad) | "- \($file | text):\(.line): Feature: \(.name | text): hooks and cleanups: **\(.around)**")),
(select(.run | is_bad) | "- hooks and cleanups of the run: **\(.run)**")

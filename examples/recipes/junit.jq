# A JUnit file, by a JSON report: a suite for each feature, a case for each scenario. Hooks and cleanups of a rule, of a
# feature or of the run that didn't pass are a case of their own. What steers a terminal is escaped: a tab, a line feed and a
# carriage return as in XML, the others such as \x1b or \u{202e}. So is `[`, so that no line has a command of a CI in it, such as
# `##[` or `##vso[`. Other characters that XML can't have become the replacement character.
# Control characters, those that end a line, and those that turn the direction of writing.
def controls: "[\\p{Cc}\\x{61c}\\x{200e}\\x{200f}\\x{2028}-\\x{202e}\\x{2066}-\\x{2069}]";
def hex: if . < 16 then "" else (. / 16 | floor | hex) end + "0123456789abcdef"[. % 16:. % 16 + 1];
def escape: explode[0] | if . == 10 then "\\n" elif . < 16 then "\\x0" + hex elif . < 160 then "\\x" + hex else "\\u{" + hex + "}" end;
def escaped($which): if test($which) then explode | map([.] | implode | if test($which) then escape else . end) | join("") else . end;
def xml:
    escaped("(?![\t\n\r])" + controls) | @html
    | reduce ("\t", "\n", "\r", "[") as $it (.; split($it) | join("&#\($it | explode[0]);"))
    | reduce ("\ufffe", "\uffff") as $it (.; split($it) | join("\ufffd"));
def line: "\(.keyword) \(.text) ... \(.status)" + (if .reason then ": \(.reason)" else "" end);
# What is in a case: why it isn't passed.
def ended($status; $message; $text):
    if $status == "failed" then "<failure message=\"\($message | xml)\">\($text | xml)</failure>"
    elif $status == "memory" then "<error message=\"\($message | xml)\">\($text | xml)</error>"
    elif $status == "passed" then ""
    else "<skipped message=\"\($status)\"/>" end;
def message: [.steps[] | select(.status == "failed" or .status == "undefined" or .status == "memory") | line] + ["hooks and cleanups"] | first;
def testcase($class): "    <testcase classname=\"\($class | xml)\" name=\"\(.name | xml)\">\(ended(.status; message; [.steps[] | line] | join("\n")))</testcase>";
def around($class; $name; $status):
    if $status == "passed" then empty
    else "    <testcase classname=\"\($class | xml)\" name=\"\($name | xml)\">\(ended($status; "hooks and cleanups"; "\($name) ... \($status)"))</testcase>" end;
def count($statuses): [.[] | select(. as $it | $statuses | index([$it]))] | length;
def suite($name; $statuses; $cases):
    "  <testsuite name=\"\($name | xml)\" tests=\"\($statuses | length)\" failures=\"\($statuses | count(["failed"]))\" errors=\"\($statuses | count(["memory"]))\" skipped=\"\($statuses | count(["skipped", "untested"]))\">",
    $cases[],
    "  </testsuite>";
def rules: (.rules // [])[];
def statuses: [.scenarios[].status] + [(rules, .).around | select(. != "passed")];

"<?xml version=\"1.0\" encoding=\"UTF-8\"?>",
"<testsuites>",
(.features[] | .source as $file
    | suite("\($file): \(.name)"; statuses;
        [(.scenarios[] | testcase($file)),
         (rules | around($file; "(rule, line \(.line): hooks and cleanups)"; .around)),
         around($file; "(hooks and cleanups)"; .around)])),
(if .run == "passed" then empty else suite("(the run)"; [.run]; [around("(the run)"; "(hooks and cleanups)"; .run)]) end),
"</testsuites>"

# The plain report of a run, by the JSON report of the same run, byte for byte. A line feed in a name is \n, and other characters are
# as they are.
def line: gsub("\n"; "\\n");
def hooks($indent): if .around == "passed" then empty else "\($indent)(hooks and cleanups) ... \(.around)" end;
def step: "    \(.keyword) \(.text | line) ... \(.status)" + (if .reason then ": \(.reason)" else "" end);
def scenario: "  \(.keyword): \(.name | line) ... \(.status)", (.steps[] | step), hooks("    ");
# Hooks and cleanups of a rule are below its last scenario, so above the next rule.
def rules:
    (.rules // []) as $rules | range($rules | length) as $place | $rules[$place] | select(.around != "passed")
    | {line: ($rules[$place + 1].line // infinite), text: ["  (rule, line \(.line): hooks and cleanups) ... \(.around)"]};
def inside: [(.scenarios[] | {line, text: [scenario]}), rules] | sort_by(.line)[].text[];
def feature: "Feature: \(.name | line) ... \(.status)", inside, hooks("  "), "";
def counts($noun; $always):
    . as $counts
    | ([$always[] | ", \($counts[.]) \(.)"] + [("untested", "memory") | select($counts[.] != 0) | ", \($counts[.]) \(.)"])
    | "\($counts.passed) \($noun)\(if $counts.passed == 1 then "" else "s" end) passed" + add;

(.features[] | feature),
(if .run == "passed" then empty else "(hooks and cleanups) ... \(.run)" end),
(.summary.features | counts("feature"; ["failed", "skipped"])),
(.summary.scenarios | counts("scenario"; ["failed", "skipped"])),
(.summary.steps | counts("step"; ["failed", "skipped", "undefined"]))

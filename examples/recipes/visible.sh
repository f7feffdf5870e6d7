#!/bin/sh
# Escapes characters of names that steer a terminal or a CI: .. | examples/recipes/visible.sh
#
# Each control character becomes `\x` and two hexadecimal digits: an escape is `\x1b`. So do the characters U+0080 to U+009F, in
# UTF-8. The others that end a line, and those that turn the direction of writing, become such as `\u{202e}`. No line is a command
# of a CI: `::` at its beginning, also after spaces of Unicode, becomes `:\x3a`, and the bracket of `##[`, `##vso[` or another word
# `\x5b`. Lines stay lines. `visible.sh TEXT` prints the text as one line, with `\n` for each line feed.
# If it can't write, it exits with 3.
set -eu

escapes=$(awk 'BEGIN {
    for (code = 0; code < 160; code++)
        if (code != 10 && (code < 32 || code > 126))
            printf "s/%s\\x%02x/\\\\x%02x/g\n", (code > 127 ? "\\xc2" : ""), code, code
    for (code = 8206; code < 8298; code++)
        if (code < 8208 || (code > 8231 && code < 8239) || code > 8293)
            printf "s/\\xe2\\x%x\\x%x/\\\\u{%x}/g\n", 128 + int((code - 8192) / 64), 128 + code % 64, code
}')'
s/\xd8\x9c/\\u{61c}/g
s/##\([A-Za-z]*\)\[/##\1\\x5b/g
s/^\([^!-~]*\)::/\1:\\x3a/'
export LC_ALL=C
if [ $# -eq 0 ]; then
    sed "$escapes" || exit 3
else
    { printf '%s' "$*" | sed -z 's/\n/\\n/g
'"$escapes" && echo; } || exit 3
fi

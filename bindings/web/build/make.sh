#!/bin/sh
# Rebuilds the page, its module and the sums: bindings/web/build/make.sh [MODULE]
#
# MODULE is the output of capture_module.sh. Without it, or without wasm-opt of binaryen, bindings/web/gherkin_run.wasm stays as it is.
set -eu

cd "$(dirname -- "$(readlink -f -- "$0")")/.."
if [ -n "${1:-}" ] && command -v wasm-opt > /dev/null; then
    build/make_module.sh "$1" gherkin_run.wasm
    chmod 644 gherkin_run.wasm
    build/tools.sh > made.tools
else
    echo "bindings/web/gherkin_run.wasm isn't rebuilt: no module is given, or wasm-opt of binaryen is missing"
fi
python3 build/make_page.py gherkin_run.wasm > try.html
sha256sum gherkin_run.wasm try.html > made.sha256

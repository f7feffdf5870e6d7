#!/bin/sh
# Prints the tools that build bindings/web/gherkin_run.wasm: the toolchain, and wasm-opt
set -eu

echo "$(rt version), $(wasm-opt --version)"

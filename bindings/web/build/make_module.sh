#!/bin/sh
# Builds the WebAssembly module from the output of capture_module.sh: bindings/web/build/make_module.sh MODULE OUT
#
# Needs the toolchain's clang and linker, and wasm-opt of binaryen, which turns the module's 64-bit memory into a 32-bit
# one, since not every browser has 64-bit memories.
set -eu

here=$(dirname -- "$(readlink -f -- "$0")")
kit=$(dirname -- "$(dirname -- "$(readlink -f -- "$(command -v rt)")")")
clang=$kit/toolchain/bin/clang
room=$(mktemp -d)
trap 'rm -rf "$room"' EXIT
# No vectors and no memory.copy: wasm-opt 108 can't turn these into code for a 32-bit memory.
to="--target=wasm64-unknown-unknown -mcpu=mvp -msign-ext -mmutable-globals --no-default-config -ffunction-sections -fdata-sections -O2"
from="--target=x86_64-unknown-linux-gnu --no-default-config"
$clang $from -x ir "$1" -S -emit-llvm -Xclang -disable-llvm-passes -o "$room/library.ll"
python3 "$here/retarget.py" "$room/library.ll" "$room/library64.ll"
$clang $to -mllvm -expand-div-rem-bits=64 -c -x ir "$room/library64.ll" -o "$room/library.o"
# Compiled for x86-64 first, so that it returns its struct as the library expects.
$clang $from -O2 -ffreestanding -nostdinc -S -emit-llvm "$here/heap.c" -o "$room/heap.ll"
python3 "$here/retarget.py" "$room/heap.ll" "$room/heap64.ll"
$clang $to -c -x ir "$room/heap64.ll" -o "$room/heap.o"
$clang $to -ffreestanding -nostdinc -c "$here/allocator.c" -o "$room/allocator.o"
$clang $to -ffreestanding -fno-builtin -nostdinc -fwrapv -c "$here/helpers.c" -o "$room/helpers.o"
"$kit/toolchain/bin/ld.lld" -flavor wasm -mwasm64 --no-entry --strip-all --stack-first -z stack-size=1048576 --gc-sections \
    --export=gherkin_run --export=malloc \
    "$room/library.o" "$room/heap.o" "$room/allocator.o" "$room/helpers.o" -o "$room/wide.wasm"
wasm-opt --enable-memory64 --enable-sign-ext --enable-mutable-globals --memory64-lowering -O2 "$room/wide.wasm" -o "$2"

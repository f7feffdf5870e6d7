#!/bin/sh
# Makes the static library that needs no toolchain: tools/static_library.sh OUT [ARCHIVE]
#
# ARCHIVE is the static library that `rt lib` makes; the default is crates/gk_c/out/libgk_c.a. OUT has its members, and the
# memory functions of the toolchain. The same archive gives the same bytes on each machine.
set -eu

home=$(dirname -- "$(dirname -- "$(readlink -f -- "$0")")")
archive=${2:-$home/crates/gk_c/out/libgk_c.a}
kit=$(dirname -- "$(dirname -- "$(readlink -f -- "$(command -v rt)")")")
printf '%s\n' "CREATE $1" "ADDLIB $archive" "ADDLIB $kit/c/liblibc_c.a" SAVE END | "$kit/toolchain/bin/llvm-ar" -M

#!/bin/sh
# Makes the shared library from the static one: tools/shared_library.sh OUT [ARCHIVE]
#
# ARCHIVE is the static library; the default is crates/gk_c/out/libgk_c.a, which `rt lib` makes. The library's own name is
# libgherkin_run.so.N; N is the ABI version in bindings/c/gherkin_run.h. It exports the calls of that header and nothing
# else. The toolchain's own linker makes it, so the same archive gives the same bytes on each machine. It doesn't name the
# C library, which it takes from the process that loads it.
set -eu

out=$1
home=$(dirname -- "$(dirname -- "$(readlink -f -- "$0")")")
archive=${2:-$home/crates/gk_c/out/libgk_c.a}
kit=$(dirname -- "$(dirname -- "$(readlink -f -- "$(command -v rt)")")")
abi=$(sed -n 's/^#define GHERKIN_RUN_ABI_VERSION //p' "$home/bindings/c/gherkin_run.h")
echo '{ global: gherkin_run; gherkin_run_files; gherkin_run_version; local: *; };' |
    "$kit/toolchain/bin/ld.lld" -shared --gc-sections --strip-all -z noexecstack --build-id=none \
        --soname="libgherkin_run.so.$abi" --version-script=/dev/stdin -u gherkin_run -u gherkin_run_files -u gherkin_run_version \
        -o "$out" "$archive" "$kit/c/liblibc_c.a"

#!/bin/sh
# Builds crates/gk_c, and keeps the LLVM module of its static library: bindings/web/build/capture_module.sh OUT
#
# OUT is the module, as bitcode. The toolchain passes the module of a proved crate to its own clang, and doesn't keep it. So
# this script calls the toolchain through a folder of links, in which clang is a script that copies the module before it
# calls the real clang. crates/gk_c/out/libgk_c.a is the same as that of `rt lib`.
# gk_c is proved here again. Its dependencies are taken from the build that tools/keep.sh kept; if that was of other sources,
# `rt lib` builds them first.
set -eu

# Prints a path as a word of a script.
quoted() {
    printf '%s\n' "$1" | sed "s/'/'\\\\''/g; 1s/^/'/; \$s/\$/'/"
}

out=$(readlink -f -- "$1")
cd "$(dirname -- "$(readlink -f -- "$0")")/../../.."
kit=$(dirname -- "$(dirname -- "$(readlink -f -- "$(command -v rt)")")")
room=
trap 'rm -rf "$room"' EXIT
trap 'exit 1' HUP INT TERM
room=$(mktemp -d)
mkdir -p "$room/toolchain/bin" crates/gk_c/out
for it in "$kit"/toolchain/*; do
    case $it in */bin) ;; *) ln -s "$it" "$room/toolchain/" ;; esac
done
for it in "$kit"/toolchain/bin/*; do
    case $it in */clang) ;; *) ln -s "$it" "$room/toolchain/bin/" ;; esac
done
cat > "$room/toolchain/bin/clang" <<END
#!/bin/sh
for word in "\$@"; do
    case \$word in *.bc) cp "\$word" $(quoted "$out") ;; esac
done
exec $(quoted "$kit/toolchain/bin/clang") "\$@"
END
chmod +x "$room/toolchain/bin/clang"

if [ "$(tools/sources.sh)" != "$(cat out/gherkin_run.sources 2> /dev/null)" ] ||
    ! sha256sum --status -c out/gherkin_run.libraries 2> /dev/null; then
    (cd crates/gk_c && rt lib)
fi
rm -f crates/gk_c/out/libgk_c.a "$out"
set -- --extern "std=$kit/rlibs/std.rlib" -L "dependency=$kit/rlibs"
for library in crates/*/out/rlib; do
    set -- "$@" -L "dependency=$PWD/$library"
done
for name in $(sed -n 's/^gk_c staticlib: //p' crates.txt); do
    set -- "$@" --extern "$name=$PWD/crates/$name/out/rlib/$name.rlib"
done
(cd crates/gk_c && "$kit/bin/rattle" build --crate-name gk_c src/lib.rt --crate-type staticlib "$@" \
    --antt-project "$kit/rattle/logic/antt-project.json" --logic-built "$kit/logic_built" --links gk_c= \
    --jobs "$(nproc)" --toolchain "$room/toolchain" --backend llvm -o out/libgk_c.a)
if ! [ -s "$out" ]; then
    echo "capture_module.sh: the toolchain passed no module to its clang" >&2
    exit 1
fi
chmod 644 "$out"

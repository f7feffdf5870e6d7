#!/bin/sh
# Makes the Debian packages: packaging/debian/make.sh OUT [DIST]
#
# OUT is the folder that gets them. The program and the static library are those of the folder DIST, by default dist/ of
# this clone. The same files give the same bytes each time: owners and times are fixed, and names are sorted.
set -eu
umask 022

home=$(readlink -f -- "$(dirname -- "$(readlink -f -- "$0")")/../..")
out=$(readlink -f -- "$1")
dist=$(readlink -f -- "${2:-"$home/dist"}")
read -r version < "$home/packaging/version"
# The date in the changelog, in seconds.
LC_ALL=C SOURCE_DATE_EPOCH=$(date -u -d "$(sed -n 's/^ -- .*>  //p' "$home/packaging/debian/changelog")" +%s)
export LC_ALL SOURCE_DATE_EPOCH
room=$(mktemp -d)
trap 'rm -rf "$room"' EXIT
trap 'exit 1' HUP INT TERM

# Prints a file of this folder with the version, and a size in KiB.
filled() {
    sed "s/@VERSION@/$version/; s/@SIZE@/${2:-}/" "$home/packaging/debian/$1"
}

# Adds what every package needs to the folder of one, and makes it.
finish() {
    install -D -m 644 "$home/packaging/debian/copyright" "usr/share/doc/$1/copyright"
    filled changelog > "$room/changelog"
    gzip -9nc "$room/changelog" > "usr/share/doc/$1/changelog.gz"
    mkdir DEBIAN
    find usr -type f -printf '%s\n' -o -printf '1024\n' > "$room/sizes"
    size=$(awk '{ size += int(($1 + 1023) / 1024) } END { print size }' "$room/sizes")
    filled "$1.control" "$size" > DEBIAN/control
    find usr -type f > "$room/files"
    sort -o "$room/files" "$room/files"
    xargs -d '\n' -a "$room/files" md5sum > DEBIAN/md5sums
    chmod -R u=rwX,go=rX .
    find . -exec touch -d "@$SOURCE_DATE_EPOCH" {} +
    dpkg-deb --root-owner-group -Zgzip --build . "$out/$1_${version}_amd64.deb"
}

mkdir "$room/program" "$room/library"
cd "$room/program"
doc=usr/share/doc/gherkin-run
install -D "$dist/gherkin_run" usr/bin/gherkin_run
install -D -m 644 "$home/packaging/gherkin_run.bash" usr/share/bash-completion/completions/gherkin_run
install -D -m 644 "$home/packaging/_gherkin_run" usr/share/zsh/vendor-completions/_gherkin_run
install -D -m 644 "$home/packaging/gherkin_run.fish" usr/share/fish/vendor_completions.d/gherkin_run.fish
install -D -m 644 "$home/packaging/debian/overrides" usr/share/lintian/overrides/gherkin-run
install -D -m 644 "$home/docs/FAULTS.md" "$doc/docs/FAULTS.md"
cp -R "$home/docs/guide" "$doc/docs/guide"
cp -R "$home/examples" "$doc/examples"
find "$doc" -name __pycache__ -prune -exec rm -r {} +
# A folder of documents has the name of its package.
sed 's|share/doc/gherkin_run|share/doc/gherkin-run|' "$home/packaging/gherkin_run.1" > "$room/gherkin_run.1"
mkdir -p usr/share/man/man1
gzip -9nc "$room/gherkin_run.1" > usr/share/man/man1/gherkin_run.1.gz
finish gherkin-run

cd "$room/library"
lib=lib/x86_64-linux-gnu
install -D -m 644 "$home/bindings/c/gherkin_run.h" usr/include/gherkin_run.h
install -D -m 644 "$dist/libgherkin_run.a" "usr/$lib/libgherkin_run.a"
mkdir "usr/$lib/pkgconfig"
sed "s|^prefix=.*|prefix=/usr|; s|^libdir=.*|libdir=\${prefix}/$lib|" "$home/packaging/gherkin_run.pc" > "usr/$lib/pkgconfig/gherkin_run.pc"
finish libgherkin-run-dev

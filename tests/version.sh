#!/bin/bash
# One version. The top entry of CHANGELOG.md says it; include/skid.h (SKID_VERSION), rust/skid/Cargo.toml (and so skid::VERSION) and
# rust/Cargo.lock, which names rust/skid, say the same. One interface too: include/skid.h (SKID_INTERFACE) and rust/skid ask for the
# name that crates/skid exports. Its number rises with every change of a call, of an answer or of a layout.
# `bash tests/version.sh write` carries the changelog's version to the other three. Then, and without a word, it compares: it prints the
# version, or where another one stands, and ends with 1 if there is one.
cd "$(dirname "$0")/.." || exit 1
version=$(sed -n 's/^## \([^ ,]*\).*/\1/p' CHANGELOG.md | head -n 1)
[[ $version =~ ^[0-9]+\.[0-9]+\.[0-9]+$ ]] || { echo "CHANGELOG.md: the top entry has no version: $version"; exit 1; }

if [ "${1:-}" = write ]; then
    sed -i "s/^#define SKID_VERSION \".*\"/#define SKID_VERSION \"$version\"/" include/skid.h
    sed -i "0,/^version = /s/^version = \".*\"/version = \"$version\"/" rust/skid/Cargo.toml
    sed -i "/^name = \"skid\"/{n;s/^version = \".*\"/version = \"$version\"/}" rust/Cargo.lock
fi

wrong=0
# same FILE SAID: complains unless what the file said is the version
same() {
    [ "$2" = "$version" ] && return
    echo "$1 says ${2:-nothing}, CHANGELOG.md says $version"
    wrong=1
}
same include/skid.h "$(sed -n 's/^#define SKID_VERSION "\(.*\)"$/\1/p' include/skid.h)"
same rust/skid/Cargo.toml "$(sed -n 's/^version = "\(.*\)"$/\1/p' rust/skid/Cargo.toml)"
same rust/Cargo.lock "$(sed -n '/^name = "skid"$/{n;s/^version = "\(.*\)"$/\1/p}' rust/Cargo.lock)"

# the_interface FILE: the number in the one name skid_interface_N that a file has; what it has, if there is no such one
the_interface() {
    grep -oE 'skid_interface_[0-9]+' "$1" | sort -u | sed 's/^skid_interface_//' | tr '\n' ' ' | sed 's/ $//'
}
interface=$(the_interface crates/skid/src/lib.rt)
asked() {
    [ "$2" = "$interface" ] && return
    echo "$1 asks for interface ${2:-nothing}, crates/skid has $interface"
    wrong=1
}
[[ $interface =~ ^[0-9]+$ ]] || { echo "crates/skid: not one interface: $interface"; wrong=1; }
asked include/skid.h "$(sed -n 's/^#define SKID_INTERFACE \([0-9]*\)$/\1/p' include/skid.h)"
asked rust/skid "$(the_interface rust/skid/src/raw.rs)"
[ "$wrong" = 0 ] && echo "version $version in the changelog, the header and the Rust crate; interface $interface in all three of the library"
exit "$wrong"

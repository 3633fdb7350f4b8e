#!/usr/bin/env bash
# bash install.sh PREFIX: the library for who links it, into PREFIX: include/skid.h, include/skid_arena.h, lib/libskid.a,
# lib/pkgconfig/skid.pc, share/skid/rust (the crate, for a path dependency) and share/skid/cmake/skidConfig.cmake. It prints what it put
# there, and the archive's SHA-256. The archive is that of crates/skid/out; if there is none, or a source is newer, it is made first.
# bash install.sh --uninstall PREFIX: takes the same away again, and the folders below PREFIX that were made for it and are empty.
# bash install.sh --hash: the archive's SHA-256 alone. It differs between kinds of hosts, so the top entry of CHANGELOG.md has a line for
# each. `--hash write` writes the one of this host, `--hash check` looks whether the entry has the hash.
# DESTDIR, if it is set, stands before PREFIX where files are put, and not inside them.
set -euo pipefail
cd "$(dirname "$0")"
archive=crates/skid/out/libskid.a
case $(uname -m) in
    x86_64) host='an x86-64 host' ;;
    aarch64) host='an Arm host' ;;
    *) host="a host of $(uname -m)" ;;
esac

fail() {
    echo "install: $*" >&2
    exit 1
}
usage() {
    echo "usage: bash install.sh PREFIX | --uninstall PREFIX | --hash [check | write]" >&2
    exit 2
}

# prefix WORD: an absolute path, without a slash at its end
prefix() {
    case $1 in
        '' | -*) usage ;;
        /*) ;;
        *) fail "PREFIX must be an absolute path: $1" ;;
    esac
    [ "$1" = / ] && echo / || echo "${1%/}"
}

the_hash() {
    [ -e "$archive" ] || fail "no $archive: rt lib --cpu x86-64 in crates/skid makes it"
    sha256sum "$archive" | cut -d' ' -f1
}

# top_entry: of the changelog, its newest version alone
top_entry() { awk '/^## / { n++ } n == 1' CHANGELOG.md; }

# with_hash HASH: the changelog with this host's line in its top entry; a new one stands behind the last item
with_hash() {
    awk -v host="$host" -v hash="$1" -v kit="$(rt version | cut -d' ' -f1)" '
        function told() { return "- The archive of this version has the SHA-256 `" hash "`, as " kit " makes it on " host "." }
        { line[NR] = $0 }
        /^## / { n++ }
        n == 1 && /^- / { last = NR }
        n == 1 && /^- The archive of this version has the SHA-256 / && index($0, " on " host) { mine = NR }
        END {
            for (i = 1; i <= NR; i++) {
                print i == mine ? told() : line[i]
                if (!mine && i == last) print told()
            }
        }' CHANGELOG.md
}

hash_of() {
    local now made
    now=$(the_hash)
    case ${1:-} in
        '') echo "$now" ;;
        check)
            top_entry | grep -qF "\`$now\`" || fail "on $host the archive is $now, which CHANGELOG.md does not name: bash install.sh --hash write"
            echo "the archive of crates/skid/out is one that CHANGELOG.md names"
            ;;
        write)
            made=$(mktemp)
            with_hash "$now" >"$made"
            cat "$made" >CHANGELOG.md
            rm -f "$made"
            ;;
        *) usage ;;
    esac
}

# files: what is put, below PREFIX, a line each with where it comes from; `-` is made here
files() {
    echo "include/skid.h include/skid.h"
    echo "include/skid_arena.h include/skid_arena.h"
    echo "lib/libskid.a $archive"
    echo "lib/pkgconfig/skid.pc -"
    echo "share/skid/cmake/skidConfig.cmake -"
    echo "share/skid/LICENSE LICENSE"
    echo "share/skid/NOTICE NOTICE"
    find rust/skid -type f ! -path '*/target/*' ! -path 'rust/skid/tests/*' ! -name '.*' ! -name Cargo.lock | LC_ALL=C sort | sed 's,^rust/skid/\(.*\),share/skid/rust/\1 &,'
}

version() { sed -n 's/^#define SKID_VERSION "\(.*\)"$/\1/p' include/skid.h; }

# generated PATH: a file that is made here. Paths are told from where the file stands, so that a tree can be moved.
generated() {
    case $1 in
        *.pc)
            cat <<END
prefix=\${pcfiledir}/../..
libdir=\${prefix}/lib
includedir=\${prefix}/include

Name: skid
Description: The lease layer of the skid kernel, x86-64 code
Version: $(version)
Cflags: -I\${includedir}
Libs: -L\${libdir} -lskid
END
            ;;
        *)
            cat <<'END'
get_filename_component(skid_prefix "${CMAKE_CURRENT_LIST_DIR}/../../.." ABSOLUTE)
if(NOT TARGET skid::skid)
  add_library(skid::skid STATIC IMPORTED)
  set_target_properties(skid::skid PROPERTIES
    IMPORTED_LOCATION "${skid_prefix}/lib/libskid.a"
    INTERFACE_INCLUDE_DIRECTORIES "${skid_prefix}/include")
endif()
END
            ;;
    esac
}

# made_folders PATH: makes the folders of a path; prints those that were not there, with a slash
made_folders() {
    local folder
    folder=$(dirname "$1")
    [ -d "$folder" ] && return
    made_folders "$folder"
    mkdir "$folder"
    echo "$folder/"
}

# put ROOT: the files; share/skid/files has their paths below ROOT, and the folders that were made for them
put() {
    local root=$1 path from list
    # shellcheck source=tests/lib.sh
    . tests/lib.sh
    build_library
    [ ! -e "$root/share/skid/files" ] || take_away "$root"
    mkdir -p "$root"
    list=$(mktemp)
    files | while read -r path from; do
        made_folders "$root/$path"
        if [ "$from" = - ]; then
            generated "$path" >"$root/$path"
        else
            cp "$from" "$root/$path"
        fi
        chmod 644 "$root/$path"
        echo "$root/$path"
    done >"$list"
    # the crate's build looks for the archive here, unless SKID_LIB_DIR names another folder
    sed -i 's,\.\./\.\./crates/skid/out,../../../lib,' "$root/share/skid/rust/build.rs"
    while read -r path; do echo "${path#"$root"/}"; done <"$list" >"$root/share/skid/files"
    grep -v '/$' "$list"
    rm -f "$list"
    echo "skid $(version), archive $(the_hash)"
}

# take_away ROOT: what share/skid/files has, files first, then folders that are empty, the inner ones first
take_away() {
    local root=$1 path list
    [ -e "$root/share/skid/files" ] || fail "nothing of skid is installed in $root"
    list=$(mktemp)
    cat "$root/share/skid/files" >"$list"
    sed '/\/$/d' "$list" | while read -r path; do rm -f "$root/$path"; done
    rm -f "$root/share/skid/files"
    sed -n '/\/$/p' "$list" | sort -r | while read -r path; do rmdir "$root/$path" 2>/dev/null || true; done
    rm -f "$list"
}

case ${1:-} in
    --uninstall)
        [ $# = 2 ] || usage
        where=$(prefix "$2")
        take_away "${DESTDIR:-}$where"
        ;;
    --hash)
        [ $# -le 2 ] || usage
        hash_of "${2:-}"
        ;;
    *)
        [ $# = 1 ] || usage
        where=$(prefix "$1")
        put "${DESTDIR:-}$where"
        ;;
esac

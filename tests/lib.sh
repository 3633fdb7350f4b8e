# shellcheck shell=bash
# For the test scripts that play input through the console. They source it from the top folder of the repository.

# build_plain: builds the plain `report`, and the writers of waveforms and trials, for this machine.
build_plain() {
    cargo build --release --offline --quiet --manifest-path rust/Cargo.toml -p plain --target-dir target/rust
}

# kit: the folder of the Rattle kit that `rt` belongs to.
kit() {
    if [ -n "${RATTLE_HOME:-}" ]; then
        echo "$RATTLE_HOME"
    else
        dirname "$(dirname "$(readlink -f "$(command -v rt)")")"
    fi
}

# crates_of NAME..: the crates of crates.txt that these reach, themselves too; without a name, all.
crates_of() {
    awk -v wanted="$*" '
        { sub(/#.*/, "") }
        /:/ { name = $1; sub(/:$/, "", name); names[++count] = name; sub(/^[^:]*:/, ""); deps[name] = $0 }
        END {
            n = wanted == "" ? 0 : split(wanted, queue, " ")
            if (wanted == "") for (i = 1; i <= count; i++) queue[++n] = names[i]
            for (i = 1; i <= n; i++) {
                if (!(queue[i] in deps) || queue[i] in seen) continue
                seen[queue[i]]
                print queue[i]
                more = split(deps[queue[i]], next_ones, " ")
                for (k = 1; k <= more; k++) queue[++n] = next_ones[k]
            }
        }' crates.txt
}

# The library, as `rt lib` writes it.
archive=crates/skid/out/libskid.a

# is_old FILE NAME: whether there is no such file, or a source of crate NAME or of one that it reaches is newer.
is_old() {
    [ -e "$1" ] || return 0
    [ -n "$(find crates.txt $(crates_of "$2" | sed 's,^,crates/,') -name out -prune -o -newer "$1" \
        \( -name '*.rt' -o -name '*.antt' -o -name crates.txt \) -print -quit)" ]
}

# build_file FILE WORDS..: calls prove.sh with these words, which makes the file. A source that changes meanwhile is newer than it.
build_file() {
    local file=$1 began
    shift
    began=$(mktemp)
    bash tests/prove.sh "$@" || { rm -f "$began"; return 1; }
    [ -e "$file" ] || { rm -f "$began"; echo "there is no $file"; return 1; }
    touch -r "$began" "$file"
    rm -f "$began"
}

# program_is_old NAME: whether that program is not built, or a source that it is made of is newer.
program_is_old() { is_old "crates/$1/out/$1" "$1"; }

# build_program NAME: proves and builds it.
build_program() { build_file "crates/$1/out/$1" run "$1"; }

# program NAME: a program on this standard input. It is an x86-64 program; on another machine it runs as the kit runs programs there,
# under its emulator and its own loader and C library.
program() {
    local tools word
    (
        [ "$(uname -m)" != x86_64 ] || exec "crates/$1/out/$1"
        for word in $(env | sed -n 's/^\(QEMU_[A-Za-z0-9_]*\)=.*/\1/p'); do unset "$word"; done
        tools=$(kit)/on/$(uname -m)/toolchain
        exec "$tools/bin/qemu-x86_64" "$tools/lib/ld-linux-x86-64.so.2" --library-path "$tools/lib" "crates/$1/out/$1"
    )
}

# first_difference A B: the number of the first line in which two files differ; nothing if they are equal.
first_difference() {
    local said
    said=$(LC_ALL=C cmp "$1" "$2" 2>&1) && return
    case $said in
        *'which is empty'*) echo 1 ;;
        *', in line '*) echo "${said##*, in line }" ;;
        *'EOF on '*', line '*) echo $((${said##*, line } + 1)) ;;
        *', line '*) echo "${said##*, line }" ;;
    esac
}

# a_line FILE LINE: that line, fit to be printed.
a_line() {
    if [ "$2" -gt "$(grep -a -c '' "$1")" ]; then echo '(no such line)'; else sed -n "${2}p" "$1" | cat -v | cut -c 1-300; fi
}

# show_difference WANTED PRINTED: the first line in which the two differ, of both.
show_difference() {
    local line
    line=$(first_difference "$1" "$2")
    echo "  line $line, wanted:  $(a_line "$1" "$line")"
    echo "  line $line, printed: $(a_line "$2" "$line")"
}

# plays NAME INPUT WANTED WORDS..: the program with these words, INPUT's bytes as standard input, prints the file WANTED; it says on
# standard error how many lines of that were not understood, if any, and nothing else (the plain build may say first that it is the
# plain one); it ends with 1 if there were any and else with 0. If it is not so, that is said, and the function fails.
plays() {
    local name=$1 input=$2 wanted=$3 files=${room:?} status=0 count wanted_status=0
    shift 3
    name="$name${*:+ ($*)}"
    (bench "$@") <"$input" >"$files/out" 2>"$files/said" || status=$?
    [ "${1:-}" != --plain ] || sed -i '1{/^bench: .*plain build/d}' "$files/said"
    count=$(LC_ALL=C grep -a -c '^line [0-9]*: not understood$' "$wanted" || true)
    : >"$files/wanted-said"
    if [ "$count" -gt 0 ]; then
        echo "bench: $count lines not understood" >"$files/wanted-said"
        wanted_status=1
    fi
    if ! cmp -s "$wanted" "$files/out"; then
        echo "$name: NOT WHAT WAS WANTED"
        show_difference "$wanted" "$files/out"
    elif ! cmp -s "$files/wanted-said" "$files/said"; then
        echo "$name: NOT WHAT WAS WANTED on standard error"
        show_difference "$files/wanted-said" "$files/said"
    elif [ "$status" -ne "$wanted_status" ]; then
        echo "$name: status $status, not $wanted_status"
    else
        return 0
    fi
    return 1
}

# The bench: rust/bench on the library, and beside it the program with the plain build alone, which needs no library. On a machine
# that is not x86-64, Debian's cross compilers make the first and an emulator runs it; the second is made for the machine itself.
bench_target=x86_64-unknown-linux-gnu
bench_program=target/rust/$bench_target/release/bench
plain_bench_program=target/rust/release/bench
# A command and its words under which the program runs; none but for a person at a terminal.
line_editor=()

# library_is_old: whether there is no archive, or a source that it is made of is newer.
library_is_old() { is_old "$archive" skid; }

# as_root WORDS..: a command as the one who may install packages.
as_root() {
    if [ "$(id -u)" -eq 0 ]; then "$@"; else sudo "$@"; fi
}

# install_packages PACKAGE..: installs these packages of Debian's.
install_packages() {
    echo "installing Debian's $*"
    command -v apt-get >/dev/null || {
        echo "there is no apt-get here: install them, or what this system has in their place, and run this again"
        return 1
    }
    as_root apt-get -qq update && as_root apt-get -qq install -y --no-install-recommends "$@" >/dev/null
}

# need_cargo: a Rust compiler. Debian 12 has a new one beside its own, by another name.
need_cargo() {
    ! command -v cargo >/dev/null || return 0
    if apt-cache show cargo-web >/dev/null 2>&1; then
        install_packages cargo-web rustc-web
    else
        install_packages cargo rustc
    fi
}

# need_cross: the cross compilers and the emulator, where they are needed.
need_cross() {
    [ "$(uname -m)" != x86_64 ] || return 0
    if ! [ -x /usr/bin/x86_64-linux-gnu-gcc ] || ! [ -x /usr/bin/rustc ] || ! [ -x /usr/bin/qemu-x86_64 ]; then
        as_root dpkg --add-architecture amd64
        install_packages gcc-x86-64-linux-gnu libc6-dev:amd64 rustc-web libstd-rust-web-dev:amd64 qemu-user
    fi
}

# build_library: proves the layers and builds the library, if a source has changed.
build_library() {
    local start=$SECONDS
    library_is_old || return 0
    echo "proving the layers and building the library: some minutes, a line for each layer"
    build_file "$archive" lib skid || return 1
    echo "proved and built the library, $((SECONDS - start)) s"
}

# build_console WORDS..: builds rust/bench with these words for cargo, and says how long it took if there was something to build.
build_console() {
    local start=$SECONDS
    need_cargo || return 1
    (
        set -o pipefail
        cargo build --release --offline --manifest-path rust/Cargo.toml -p bench --target-dir target/rust "$@" 2>&1 |
            awk '/^ *Compiling / { if (!n++) { print "building the console"; fflush() } next } /^ *Finished / { next } { print; fflush() }'
    ) || return 1
    [ $((SECONDS - start)) -lt 2 ] || echo "built the console, $((SECONDS - start)) s"
}

# build_bench: the library, and the program on it.
build_bench() {
    build_library && need_cross || return 1
    (
        if [ "$(uname -m)" != x86_64 ]; then
            export RUSTC=/usr/bin/rustc CARGO_TARGET_X86_64_UNKNOWN_LINUX_GNU_LINKER=/usr/bin/x86_64-linux-gnu-gcc
        fi
        build_console --target "$bench_target"
    )
}

# build_plain_bench: the program with the plain build alone.
build_plain_bench() {
    build_console --no-default-features
}

# bench WORDS..: the program, in place of this shell. STACK, in kilobytes, is all the stack that it gets.
bench() {
    local run=()
    [ -z "${STACK:-}" ] || ulimit -s "$STACK"
    [ "$(uname -m)" = x86_64 ] || run=(/usr/bin/qemu-x86_64 ${STACK:+-s $((STACK * 1024))} -L /)
    exec ${line_editor[@]+"${line_editor[@]}"} ${run[@]+"${run[@]}"} "$bench_program" "$@"
}

# plain_bench WORDS..: the same, of the program with the plain build alone.
plain_bench() {
    [ -z "${STACK:-}" ] || ulimit -s "$STACK"
    exec ${line_editor[@]+"${line_editor[@]}"} "$plain_bench_program" "$@"
}

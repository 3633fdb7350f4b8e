#!/usr/bin/env bash
# What a call costs: the stack of each exported call, measured in its worst case (tests/c/stack.c, on a painted stack) and at most, read
# from the code (tests/frames.py); the instructions of a kernel's calls by their size; the size of the archive and of a typical link.
# Without a word it is printed. `--check` compares it with docs/INTEGRATION.md, where it stands between two marks; `--write` puts it there.
# Compared so: the stack, measured and by the code, is at most the page's last number; instructions are within two in a hundred of the
# page's and at most its formula, which at the largest size is at most a quarter too high; the archive's size is the page's, that of a
# link within five in a hundred. `--check` first tries itself: damaged code and a damaged page must be refused.
set -euo pipefail
cd "$(dirname "$0")/.."
# shellcheck source=tests/lib.sh
. tests/lib.sh
# shellcheck source=tests/compilers.sh
. tests/compilers.sh
archive=crates/skid/out/libskid.a
page=docs/INTEGRATION.md
out=target/stack
begin='<!-- what a call costs: begin -->'
end='<!-- what a call costs: end -->'
mkdir -p "$out"

fail() {
    echo "stack: $*" >&2
    exit 1
}
[ -e "$archive" ] || fail "no $archive: rt lib --cpu x86-64 in crates/skid makes it"
need_compilers >&2
size=size objdump=objdump emulate=(qemu-x86_64)
if [ "$(uname -m)" != x86_64 ]; then
    size=/usr/bin/x86_64-linux-gnu-size objdump=/usr/bin/x86_64-linux-gnu-objdump emulate=(/usr/bin/qemu-x86_64 -L /)
elif ! command -v qemu-x86_64 >/dev/null; then
    install_packages qemu-user >&2
fi
emulate[0]=$(command -v "${emulate[0]}")
command -v cc >/dev/null || install_packages gcc libc6-dev >&2

# A case of tests/c/stack.c, its call, what its size counts, its sizes, a formula for its worst case.
cases='take | skid_transactional_try_lock_bucket | a free cell | 0 | 240
take_busy | skid_transactional_try_lock_bucket | a held cell | 1 | 270
take_cell | skid_try_lock | a free cell | 0 | 260
give | skid_drop_lease | a live lease | 1 | 110
is_mine | skid_read_permission | a live lease | 1 | 120
set | skid_environment | one step, waiters or health | 1 | 210
take_all | skid_acquire_sorted_locks | n keys, a bucket of each header | 1 16 32 64 | 1000 + 220 n + 5.2 n^2
take_all_in_vain | skid_acquire_sorted_locks | the same, the last cell of a poisoned header | 1 16 32 64 | 1080 + 210 n + 2.6 n^2
take_in_order | skid_acquire_index_locks | n keys | 1 16 32 64 | 620 + 46 n
take_in_order_in_vain | skid_acquire_index_locks | the same, the last key of a poisoned header | 1 16 32 64 | 750 + 52 n
give_all | skid_release_all | n leases, cells 251 apart | 1 16 32 64 | 250 + 55 n + 3 n^2
open | skid_prepare | n cells | 64 1024 4096 | 260 + 1.33 n
mend | skid_salvage | n cells, each word and byte to be mended | 64 1024 4096 | 1500 + 50 n
book_open | skid_prepare_book | n slots of 52 bytes | 1 16 64 | 110 + 6.5 n
write | skid_write_speed | n slots of four versions, nothing slides | 1 16 32 64 | 1060 + 209 n
write_slide | skid_write_speed | the same, every kept body slides | 1 16 32 64 | 1050 + 397 n
read | skid_read_setpoint | n slots of four versions | 1 16 32 64 | 890 + 151 n
write_long | skid_write_speed | 64 slots in a book of n bytes, every kept body slides | 3328 16384 32768 | 21800 + 1.4 n'

# made NAME FLAGS..: tests/c/stack.c. Each call stands in a frame that has nothing else, and is a call, not a jump.
made() {
    local name=$1
    shift
    $gcc -std=gnu11 -O2 -Wall -Wextra -Werror -fno-omit-frame-pointer -fno-optimize-sibling-calls -Iinclude "$@" \
        tests/c/stack.c "$archive" -static -o "$out/$name" || fail "tests/c/stack.c is not clean"
}
made loops -DBYTE_LOOPS
made libc
cc -O2 -Wall -Wextra -shared -fPIC -o "$out/insn.so" bench/insn.c

# executed PROGRAM WORD..: the instructions. The processor has no more than every x86-64 machine has, as in bench/speed.sh. The
# environment is empty: by its length the program's own words lie elsewhere on the stack, and comparing them costs more or less.
executed() {
    env -i "${emulate[@]}" -cpu qemu64 -plugin "$out/insn.so" "$out/$1" "${@:2}" 2>"$out/count" || fail "$* ended $?: $(cat "$out/count")"
    sed -n 's/^insns \([0-9]*\)$/\1/p' "$out/count"
}

# costs PROGRAM CASE SIZE: the instructions of the call alone
costs() { echo $(($(executed "$@" call) - $(executed "$@" none))); }

# at FORMULA N: what the formula says
at() { awk -v n="$2" "BEGIN { printf \"%.0f\", ${1// n/ * n} }"; }

# The stack of each call: by the painted stack, and the most that its code can use, on any path.
stacks() {
    printf '%s\n' '| call | stack measured, bytes | at most, by the code |' '|---|---|---|'
    "${run[@]}" "$out/loops" | LC_ALL=C sort >"$out/painted"
    "$objdump" -dr --no-show-raw-insn "$archive" >"$out/code"
    python3 tests/frames.py include/skid.h <"$out/code" | LC_ALL=C sort >"$out/frames"
    # shellcheck disable=SC2016
    LC_ALL=C join -a1 -a2 "$out/painted" "$out/frames" | sed 's/^\([^ ]*\) \([^ ]*\) \([^ ]*\)$/| `\1` | \2 | \3 |/'
}

instructions() {
    local name call what sizes formula n found slow most
    printf '%s\n' '| call | worst case | n | instructions | with byte loops | at most, without them |' '|---|---|---|---|---|---|'
    while IFS='|' read -r name call what sizes formula; do
        name=${name// /} call=${call// /} what=$(xargs <<<"$what") formula=$(xargs <<<"$formula")
        for n in $sizes; do
            found=$(costs libc "$name" "$n") slow=$(costs loops "$name" "$n") most=$(at "$formula" "$n")
            [ "$found" -le "$most" ] || fail "$name of $n: $found instructions, and the formula says $most"
            [[ $formula == *n* ]] || n=
            echo "| \`$call\` | $what | $n | $found | $slow | $formula |"
        done
        [ $((found * 5)) -ge $((most * 4)) ] || fail "$name: the formula says $most, and $found instructions were executed"
    done <<<"$cases"
}

# A kernel's program with six calls of skid_arena.h, and memcpy and memset of its own.
cat >"$out/typical.c" <<'C'
#include "skid_arena.h"
SKID_MEMORY(plant_memory, headers(3), buckets(4));
static struct plant_memory memory;
SKID_ARENA(plant, memory, registry(0, 1, 2));
void *memset(void *to, int byte, size_t count)
{
    char *at = to;
    while (count-- > 0)
        *at++ = (char)byte;
    return to;
}
void *memcpy(void *to, const void *from, size_t count)
{
    char *at = to;
    const char *source = from;
    while (count-- > 0)
        *at++ = *source++;
    return to;
}
int turn(uint32_t boot);
int turn(uint32_t boot)
{
    const struct skid_key keys[2] = {{0, 2}, {1, 1}};
    struct skid_lease lease, leases[2];
    int codes = skid_open(&plant, boot).code | skid_take(&plant, keys[0], &lease).code | skid_is_mine(&plant, lease).code;
    codes |= skid_give(&plant, lease).code | skid_take_all(&plant, keys, 2, leases).code;
    return codes | skid_give_all(&plant, leases, 2).code;
}
C

# linked FLAGS..: bytes of code and constants of that program
linked() {
    # shellcheck disable=SC2086
    $gcc -std=c11 -Os $strict $kernel -static -fno-tree-loop-distribute-patterns -Wl,-e,turn "$@" "$out/typical.c" "$archive" -o "$out/typical"
    "$size" "$out/typical" | awk 'NR == 2 { print $1 }'
}

sizes() {
    printf '%s\n' '| what | code and constants, bytes |' '|---|---|'
    echo "| the archive | $("$size" -t "$archive" | awk '/TOTALS/ { print $1 }') |"
    echo "| a program with six calls of \`skid_arena.h\` | $(linked) |"
    echo "| the same with \`-ffunction-sections\` and \`--gc-sections\` | $(linked -ffunction-sections -Wl,--gc-sections) |"
}

measured() {
    stacks && echo && instructions && echo && sizes
}

# listed: what stands between the marks of the page
listed() {
    awk -v begin="$begin" -v end="$end" '$0 == end { inside = 0 } inside { print } $0 == begin { inside = 1 }' "$page"
}

# compared PAGE FOUND: says where the page is wrong, row by row; else how many rows there are
compared() {
    awk -F' *[|] *' '
        function off(a, b, percent) { return a > b * (1 + percent / 100) || a < b * (1 - percent / 100) }
        function complain(what) { print "stack: " $0 ": " what; bad = 1 }
        FNR == 1 { file++ }
        !/^[|] / || /^[|] (call|what) / { next }
        file == 1 { page[++n] = $0; next }
        {
            split(page[++m], said, / *[|] */)
            if (said[2] != $2) complain("the page has another row")
            else if (NF == 5 && !($3 + 0 <= $4 + 0 && $3 + 0 <= said[4] + 0 && $4 + 0 <= said[4] + 0)) complain("the page says at most " said[4])
            else if (NF == 8 && (said[3] != $3 || said[4] != $4 || said[7] != $7)) complain("the page has another row")
            else if (NF == 8 && (off($5, said[5], 2) || off($6, said[6], 2))) complain("the page says " said[5] " and " said[6])
            else if (NF == 4 && off($3, said[3], $2 == "the archive" ? 0 : 5)) complain("the page says " said[3])
        }
        END {
            if (n != m || !n) { print "stack: " n " rows on the page, " m " measured"; bad = 1 }
            if (!bad) print "what a call costs: " n " rows, as the page says"
            exit bad
        }' "$1" "$2"
}

# tried_on_itself: a stack pointer changed by a register, one not restored, a function that calls itself without being listed; a page
# with less stack, other instructions, another archive, a row less
tried_on_itself() {
    local edit
    # shellcheck disable=SC2016
    for edit in '0,/sub    \$0x[0-9a-f]*,%rsp/s//sub    %rax,%rsp/' '0,/add    \$0x[0-9a-f]*,%rsp/s//add    $0x1,%rsp/' 's/sorted_merge::sort/&ed/g'; do
        ! sed "$edit" "$out/code" | python3 tests/frames.py include/skid.h >/dev/null 2>&1 || fail "tests/frames.py takes code with $edit"
    done
    for edit in '/write_speed` | [0-9]* | [0-9]* |$/s/[0-9]* |$/6000 |/' '/| 4096 |/s/| 4096 | [0-9]/&0/' '/^| the archive/s/[0-9]* |$/1 |/' 5d; do
        sed "$edit" "$out/found" >"$out/damaged"
        ! compared "$out/damaged" "$out/found" >/dev/null || fail "a page with $edit is taken"
    done
}

case ${1:-} in
    '') measured ;;
    --check)
        listed >"$out/page"
        measured >"$out/found"
        tried_on_itself
        compared "$out/page" "$out/found" || fail "$page does not say what was measured: bash tests/stack.sh --write"
        ;;
    --write)
        measured >"$out/found"
        awk -v begin="$begin" -v end="$end" -v list="$out/found" '
            $0 == end { inside = 0 }
            !inside { print }
            $0 == begin { inside = 1; while ((getline line <list) > 0) print line }' "$page" >"$out/made"
        cat "$out/made" >"$page"
        ;;
    *) echo "usage: bash tests/stack.sh [--check | --write]" >&2; exit 2 ;;
esac

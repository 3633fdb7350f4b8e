#!/usr/bin/env bash
# What the archive's code asks of its caller, read from the code: which exported functions, or functions that they call, use the SSE
# registers, the 128 bytes below the stack pointer (the red zone), and a stack that is aligned to 16 bytes. Without a word the list is
# printed. `--check` compares it with docs/INTEGRATION.md, where it stands between two marks; `--write` puts it there.
set -euo pipefail
cd "$(dirname "$0")/.."
archive=crates/skid/out/libskid.a
page=docs/INTEGRATION.md
begin='<!-- what the code uses: begin -->'
end='<!-- what the code uses: end -->'
objdump=objdump
[ "$(uname -m)" = x86_64 ] || objdump=/usr/bin/x86_64-linux-gnu-objdump
[ -e "$archive" ] || { echo "archive: no $archive: rt lib --cpu x86-64 in crates/skid makes it" >&2; exit 1; }

# A use counts where an instruction shows it: an xmm register; an access below the stack pointer; an access to the stack by an SSE
# instruction that faults where the address is no multiple of 16, which is each but the unaligned moves. A function that made a frame
# pointer would hide such accesses, so that is refused.
list() {
    "$objdump" -dr --no-show-raw-insn "$archive" | LC_ALL=C awk '
        /^[0-9a-f]+ <.*>:$/ { name = $2; gsub(/^<|>:$/, "", name); order[++count] = name; known[name]; next }
        / R_X86_64_/ || /\tR_X86_64_/ {
            target = $3
            sub(/^\.text\./, "", target)
            sub(/[-+]0x[0-9a-f]+$/, "", target)
            calls[name] = calls[name] " " target
            next
        }
        !/^ *[0-9a-f]+:\t/ { next }
        { code = $0; sub(/^ *[0-9a-f]+:\t/, "", code); split(code, part, /[ \t]+/); operation = part[1] }
        code ~ /^mov +%rsp,%rbp *$/ { print "archive: " name " makes a frame pointer" >"/dev/stderr"; bad = 1 }
        /%[xyz]mm/ { sse[name] }
        /-0x[0-9a-f]+\(%rsp/ && operation != "lea" { red[name] }
        /%xmm/ && /\(%rsp/ && operation !~ /^(movups|movupd|movdqu|movd|movq|movss|movsd|mov[lh]p[sd])$/ { aligned[name] }

        # reach NAME: marks what a function calls, itself too
        function reach(from,   list, n, i) {
            if (from in reached || !(from in known)) return
            reached[from]
            n = split(calls[from], list, " ")
            for (i = 1; i <= n; i++) reach(list[i])
        }
        function has(use,   f) {
            for (f in reached) if (f in use) return "yes"
            return "no"
        }
        END {
            if (bad || !count) exit 1
            print "| function | SSE registers | red zone | aligned stack |"
            print "|---|---|---|---|"
            for (i = 1; i <= count; i++) {
                if (order[i] !~ /^skid_[a-z_]+$/) continue
                split("", reached)
                reach(order[i])
                print "| `" order[i] "` | " has(sse) " | " has(red) " | " has(aligned) " |" | "LC_ALL=C sort"
            }
        }'
}

# listed: what stands between the marks of the page
listed() {
    awk -v begin="$begin" -v end="$end" '$0 == end { inside = 0 } inside { print } $0 == begin { inside = 1 }' "$page"
}

case ${1:-} in
    '') list ;;
    --check)
        if ! diff <(listed) <(list); then
            echo "archive: $page (<) is not what the code uses (>): bash tests/archive.sh --write" >&2
            exit 1
        fi
        echo "what the code uses: $(listed | grep -c '^| `') functions, as the page says"
        ;;
    --write)
        made=$(mktemp)
        list >"$made.list"
        awk -v begin="$begin" -v end="$end" -v list="$made.list" '
            $0 == end { inside = 0 }
            !inside { print }
            $0 == begin { inside = 1; while ((getline line <list) > 0) print line }' "$page" >"$made"
        cat "$made" >"$page"
        rm -f "$made" "$made.list"
        ;;
    *) echo "usage: bash tests/archive.sh [--check | --write]" >&2; exit 2 ;;
esac

#!/usr/bin/env bash
# The names in backquotes on the pages, README.md, CONTRIBUTING.md, CHANGELOG.md, docs/ and docs/changes/: each that looks like a
# definition, a lemma, a function, a type, a constant or a file must be there.
# - `File.name` is declared in File.antt of some crate; `name` of crate `c`, `name` (`c`), `name`, crate `c`, file `F` and a row of a table
#   | `name` | c | or | `name` | c, `F` |, c in backquotes or not, in that one;
# - a crate that is said to be one ("crate `c`") is in crates.txt, and a path is a file or a folder of the repository;
# - any other name, also as a part of `a::b` or of words in one pair of backquotes, is declared in a crate, is a word of the source of
#   crates/, rust/, include/, tests/ or bench/, or is the name of a file.
# tests/names.txt lists the names that are nowhere, each with its reason; one that is gone must be on a page and nowhere else.
# Prints what is wrong, or how much it found; ends with 1 if anything is wrong. It first tries itself on a page with wrong names, each of
# which it must find. PAGES names other pages, for trying this test; then the list may have names that these pages have not.
set -euo pipefail
export LC_ALL=C
cd "$(dirname "$0")/.."
listed=tests/names.txt
room=$(mktemp -d)
trap 'rm -rf "$room"' EXIT

# ---- what there is: lines "CRATE FILE NAME", FILE the name of the file without its end, "-" beside the crates

# declarations: of the definitions and proofs: what stands before a colon at a line's beginning, and records and data
declarations() {
    find crates -name out -prune -o -name '*.antt' -print0 | xargs -0 awk '
        FNR == 1 {
            split(FILENAME, part, "/")
            crate = part[2]
            file = FILENAME
            sub(/.*\//, "", file)
            sub(/\.antt$/, "", file)
            print crate, file, file
        }
        {
            line = $0
            sub(/^ +/, "", line)
            sub(/^[|] /, "", line)
            while (sub(/^(abbrev|unfoldable|opaque|pub|record|data|module|where) /, "", line)) kind = 1
            if (line ~ /^[^ :(){}=,]+(,? [^ :(){}=,]+)* :( |$)/) {
                sub(/ :( .*)?$/, " :", line)
                n = split(substr(line, 1, index(line, " :") - 1), name, /,? /)
                for (i = 1; i <= n; i++) print crate, file, name[i]
            } else if (kind) {
                sub(/[ :].*/, "", line)
                print crate, file, line
            }
            kind = 0
        }'
}
# words: of the source, comments left out. What the checker has proved names nothing that is not there, in the kit or here.
words() {
    find crates -name out -prune -o -name '*.antt' -print0 | xargs -0 awk '
        { sub(/(^| )-- .*/, ""); gsub(/[^A-Za-z0-9_-]+/, " "); for (i = 1; i <= NF; i++) if (!seen[$i]++) print "- -", $i }'
    find crates -name out -prune -o -name '*.rt' -print0 | xargs -0 awk '
        FNR == 1 { split(FILENAME, part, "/"); crate = part[2]; file = FILENAME; sub(/.*\//, "", file); sub(/\.rt$/, "", file) }
        { sub(/\/\/.*/, ""); gsub(/[^A-Za-z0-9_]+/, " "); for (i = 1; i <= NF; i++) if (!seen[crate, file, $i]++) print crate, file ".rt", $i }'
    find rust include tests/c bench \( -name '*.rs' -o -name '*.h' -o -name '*.c' -o -name '*.toml' \) -print0 | xargs -0 awk '
        { sub(/^ *\/\/.*/, ""); gsub(/[^A-Za-z0-9_]+/, " "); for (i = 1; i <= NF; i++) if (!seen[$i]++) print "- -", $i }'
    find tests bench .ci \( -name '*.sh' -o -name run -o -name '*.txt' \) ! -name "names.*" -print0 | xargs -0 awk '
        { sub(/^ *#.*/, ""); gsub(/[^A-Za-z0-9_-]+/, " "); for (i = 1; i <= NF; i++) if (!seen[$i]++) print "- -", $i }'
    awk -F, 'NR > 1 && !seen[$4]++ { print "- -", $4 }' docs/changes/seconds.csv # the machines of the notes
}
# files: every file and folder: its path, from a crate's folder too; its name with and without its end; of an edit CRATE/NAME
files() {
    git ls-files | awk '
        function path_and_name(path, name) {
            if (seen[path]++) return
            print "- -", path
            name = path
            sub(/.*\//, "", name)
            print "- -", name
            sub(/\.[a-z]+$/, "", name)
            print "- -", name
        }
        {
            path = $0
            do path_and_name(path); while (sub(/\/[^\/]*$/, "", path))
            path = $0
            if (sub(/^crates\/[a-z_]+\//, "", path)) path_and_name(path)
            path = $0
            if (sub(/\/must-fail\//, "/", path) && sub(/\.edit$/, "", path) && sub(/^crates\//, "", path)) path_and_name(path)
        }'
}
{ declarations && words && files; } >"$room/there"
sed -nE 's/^([a-z0-9_]+)( staticlib)?:.*/\1/p' crates.txt >"$room/crates"

# ---- what the pages say

# wrong_names PAGE..: "PAGE:LINE NAME what is wrong", of names that are not in the list
wrong_names() {
    awk -v crates_file="$room/crates" -v list_file="$listed" -v used_file="$room/used" -v count_file="$room/count" '
        FILENAME == crates_file { crate[$1] = 1; next }
        FILENAME == list_file { if ($1 != "" && $1 !~ /^#/) excused[$1] = $2; next }
        FILENAME == "-" {
            any[$3] = 1
            if ($1 == "-") next
            in_crate[$1, $3] = 1
            in_file[$2, $3] = 1
            both[$1, $2, $3] = 1
            if ($2 ~ /\.rt$/) source[$1, $2] = 1
            next
        }

        # whether a name is excused on this page
        function is_excused(name) {
            if (!(name in excused)) return 0
            used[name] = 1
            return excused[name] != "gone" || FILENAME ~ /changes\/|CHANGELOG|DECISIONS/
        }
        function complain(name, what) {
            if (!is_excused(name)) print FILENAME ":" FNR " `" name "` " what
        }
        # the name without what is put around it: (), a dot before a field
        function bare(name) {
            sub(/\(\)$/, "", name)
            sub(/^\./, "", name)
            return name
        }
        function looks_like_a_name(word) {
            if (length(word) == 64 && word !~ /[^0-9a-f]/) return 0 # a hash
            return word ~ /^[A-Za-z][A-Za-z0-9]*([-_][A-Za-z0-9]+)*$/ && word ~ /[a-z].*[a-z]|_/ && word !~ /^((Requires|Ensures|Here|Contract|Promise)F|(promise|implied|meets|met)_f)$/ # EnsuresF: of any f
        }
        # a word by itself
        function judge_word(word, name) {
            name = bare(word)
            if (!looks_like_a_name(name)) return
            checked++
            if (!(name in any)) complain(name, "is nowhere")
        }
        # File.name, or a case or a field of a type: both are words of one source
        function judge_file_name(word, dot, file, name, at) {
            dot = index(word, ".")
            file = substr(word, 1, dot - 1)
            name = substr(word, dot + 1)
            checked++
            if ((file, name) in in_file || word in any) return
            for (at in source) if ((at SUBSEP file) in both && (at SUBSEP name) in both) return
            complain(word, "is in no " file ".antt")
        }
        # a span: one word, or several
        function judge(span, n, part, i) {
            if (span ~ /^[A-Z][A-Za-z]*\.[A-Za-z][A-Za-z0-9_-]*$/) { judge_file_name(span); return }
            if (span ~ /^[A-Za-z0-9_.-]+(\/[A-Za-z0-9_.*-]+)+\/?$/) {
                if (span ~ /^target\/|^(crates\/[a-z0-9_]+\/)?out(\/|$)|\*|\.\.|(^|\/)[A-Z]+(\/|\.)/ && span !~ /^docs\//) return
                sub(/\/$/, "", span)
                checked++
                if (!(span in any)) complain(span, "is no file")
                return
            }
            n = split(span, part, /::| +/)
            for (i = 1; i <= n; i++) {
                if (part[i] ~ /^[A-Z][A-Za-z]*\.[A-Za-z][A-Za-z0-9_-]*$/) judge_file_name(part[i])
                else if (n == 1 || part[i] ~ /[-_]|[a-z][A-Z]/ || span ~ /::/) judge_word(part[i])
            }
        }
        # the names of a list "`a`, `b` and `c`" must be in this crate, and in this file if one is given
        function judge_in(list, where, file, n, part, i, name) {
            n = split(list, part, "`")
            for (i = 2; i <= n; i += 2) {
                name = bare(part[i])
                sub(/ .*/, "", name)
                sub(/^[A-Z][A-Za-z]*\./, "", name)
                if (!looks_like_a_name(name) || name in crate) continue
                checked++
                if (file != "" ? !((where, file, name) in both) : !((where, name) in in_crate)) complain(name, "is not in crate " where (file == "" ? "" : ", file " file))
            }
        }
        # what stands in the first pair of backquotes
        function quoted(text, n, part) {
            n = split(text, part, "`")
            return n > 1 ? part[2] : ""
        }
        function judge_places(line, rest, found, where, file, tail) {
            rest = line
            while (match(rest, /(`[^`]+`(, and |, | and | or ))*`[^`]+`(,| of| \(|, of) (crate )?`[a-z_]+`(, file `[A-Za-z]+`)?|(`[^`]+`(, and |, | and | or ))*`[^`]+` \(`[a-z_]+`\)/)) {
                found = substr(rest, RSTART, RLENGTH)
                rest = substr(rest, RSTART + RLENGTH)
                file = ""
                if (match(found, /, file `[A-Za-z]+`$/)) { file = quoted(substr(found, RSTART)); found = substr(found, 1, RSTART - 1) }
                if (match(found, /(,| of|, of) crate `[a-z_]+`$/) || match(found, / of `[a-z_]+`$/) || match(found, / \(`[a-z_]+`\)$/)) {
                    where = quoted(substr(found, RSTART))
                    if (where in crate) judge_in(substr(found, 1, RSTART - 1), where, file)
                }
            }
            rest = line
            while (match(rest, /[Cc]rates? `[a-z_]+`/)) {
                where = quoted(substr(rest, RSTART, RLENGTH))
                rest = substr(rest, RSTART + RLENGTH)
                checked++
                if (!(where in crate)) complain(where, "is no crate")
            }
        }
        # a row of a table whose second cell is a crate, or a crate and a file: the names of the first are there
        function judge_row(line, cell, part, where, file) {
            split(line, cell, "|")
            if (cell[3] !~ /^ `?[a-z]+`?(, `[A-Z][A-Za-z]*`)? $/) return
            file = split(cell[3], part, ", ") > 1 ? quoted(part[2]) : ""
            where = part[1]
            gsub(/[ `]/, "", where)
            if (where in crate) judge_in(cell[2], where, file)
        }
        FNR == 1 { fenced = 0 }
        /^ *```/ { fenced = !fenced; next }
        fenced || /^    / { next }
        {
            n = split($0, span, "`")
            for (i = 2; i < n || (i == n && n % 2 == 1); i += 2) judge(span[i])
            judge_places($0)
            if (/^\|/) judge_row($0)
        }
        END {
            for (name in used) print name > used_file
            print checked + 0 > count_file
        }
    ' "$room/crates" "$listed" - "$@" <"$room/there"
}

# ---- the test tried on itself: each line of this page has a wrong name
cat >"$room/damaged.md" <<'END'
`Dump.turn_of`
`Calls.try_lock_off`
`never_proved_lemma`
`.never_proved_field`
`never-proved-lemma`
`neverWrittenDown`
`never_written_down`
`NeverWrittenDown`
`SKID_NEVER_WRITTEN_DOWN`
`lease::never_written_down`
`tests/never.sh`
crate `neverwritten`
`try_lock_of` of crate `swaps`
`sorted_is` and `two_releases` of `laws`
| `one_after_another` (`history`) |
`prepare_of`, crate `model`, file `Lock`
| `script_consumed` | history | what it says |
| `prepare_of` | model, `Lock` | what it says |
| `script_consumed` | `history` | what it says |
| `prepare_of` | `model`, `Lock` | what it says |
END
: >"$room/used"
wrong_names "$room/damaged.md" | sed 's/^[^:]*:\([0-9]*\) .*/\1/' | sort -n -u >"$room/found"
missed=$(seq 1 "$(wc -l <"$room/damaged.md")" | grep -v -x -F -f "$room/found" || true)
if [ -n "$missed" ]; then
    echo "the test does not find the wrong name in these lines of its own page:" $missed
    exit 1
fi

# ---- the pages
: >"$room/used"
if [ -n "${PAGES:-}" ]; then
    read -r -a pages <<<"$PAGES"
else
    pages=(README.md CONTRIBUTING.md CHANGELOG.md docs/*.md docs/changes/*.md)
    # docs/PORT.md and docs/DESIGN-PASS.md set older names beside today's
    for at in "${!pages[@]}"; do [[ ${pages[at]} != docs/PORT.md && ${pages[at]} != docs/DESIGN-PASS.md ]] || unset "pages[at]"; done
fi
wrong=$(wrong_names "${pages[@]}")
if [ -z "${PAGES:-}" ]; then
    stale=$(sed -n 's/^\([^# ][^ ]*\) gone .*/\1/p' "$listed" | grep -v -x -F -f "$room/used" || true)
    [ -z "$stale" ] || wrong=$wrong${wrong:+$'\n'}$(sed 's/$/ stands in tests\/names.txt as gone, and is there or on no page/' <<<"$stale")
fi
if [ -n "$wrong" ]; then
    echo "$wrong"
    echo "names: $(wc -l <<<"$wrong") wrong"
    exit 1
fi
echo "names: $(cat "$room/count") names on ${#pages[@]} pages, all there; $(grep -c '^[^# ]' "$listed") are listed with a reason"

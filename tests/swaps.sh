#!/bin/bash
# docs/SWAPS.md against crate swaps: every name File.name on the page is declared in File.antt of its specs/ or proofs/, a lemma of `Theorems` as
# `pub`; and every lemma of `Theorems` stands on the page.
# Prints what is wrong, or how many names it found; ends with 1 if anything is wrong.
cd "$(dirname "$0")/.." || exit 1
page=docs/SWAPS.md
# the_files FILE: where it stands
the_files() { ls crates/swaps/{specs,proofs}/"$1.antt" 2>/dev/null; }

names=$(grep -oE '`[A-Z][A-Za-z]*\.[a-z][a-z0-9_-]*`' "$page" | tr -d '`' | sort -u)
[ -n "$names" ] || { echo "$page: no names"; exit 1; }
wrong=$(
    while IFS=. read -r file word; do
        case $file in
            Theorems) grep -qs "^pub $word : " $(the_files "$file") /dev/null ;;
            *) grep -qs "^$word : " $(the_files "$file") /dev/null ;;
        esac || echo "$file.$word is in no $file.antt of crate swaps"
    done <<< "$names"
    cat $(the_files Theorems) /dev/null | sed -n 's/^pub \([^ ]*\) : .*/\1/p' | while read -r word; do
        grep -q "^Theorems\.$word\$" <<< "$names" || echo "Theorems.$word is not on $page"
    done
)
if [ -n "$wrong" ]; then
    echo "$wrong"
    exit 1
fi
echo "$page: $(wc -l <<< "$names") names, all there"

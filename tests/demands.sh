#!/bin/bash
# docs/DEMANDS.md against the theory: every theorem and lemma that its tables name is a `pub` declaration of crate model, laws, history, history_exact, crew_theory,
# sorted_theory, crew_at_work_theory, pinned, book_theory, salvage_theory, boot_theory, book_pinned or builds; and every theorem of a file `Theorems`, and every lemma `.._falls` of crates wrong_builds and
# book_pinned, stands on the page.
# Prints what is wrong, or how many names it found; ends with 1 if anything is wrong.
cd "$(dirname "$0")/.." || exit 1
page=docs/DEMANDS.md

# the columns `theorem`, `theorem that it fails` and `lemma`: names in backquotes; behind a space stands a field of what is proved
names=$(awk -F'|' '
    /^\|/ && !table { table = 1; n = 0; for (i = 2; i < NF; i++) if ($i ~ /^ (theorem|theorem that it fails|lemma) $/) col[++n] = i; next }
    !/^\|/ { table = 0; next }
    { for (j = 1; j <= n; j++) print $(col[j]) }' "$page" | grep -oE '`[a-z][a-z0-9_-]*[ `]' | tr -d '` ' | sort -u)
[ -n "$names" ] || { echo "$page: no names"; exit 1; }
# definitions and theorems: the files of specs/, and those of proofs/ that belong to no function
specs=$(ls crates/{model,laws,history,history_exact,crew_theory,sorted_theory,crew_at_work_theory,pinned,book_theory,salvage_theory,boot_theory,book_pinned,wrong_builds}/{specs,proofs}/*.antt 2>/dev/null)
wrong=$(
    for name in $names; do
        grep -qs "^ *pub $name : " $specs || echo "$name is declared nowhere"
    done
    { for crate in history history_exact crew_theory sorted_theory crew_at_work_theory pinned book_theory salvage_theory boot_theory book_pinned; do
          cat crates/$crate/{specs,proofs}/Theorems.antt 2>/dev/null | sed -n 's/^pub \([^ ]*\) : .*/\1/p' | grep . || echo "theorems-of-$crate"
      done
      cat crates/{wrong_builds,book_pinned}/{specs,proofs}/*.antt 2>/dev/null | sed -n 's/^pub \([^ ]*_falls\) : .*/\1/p'; } | sort -u | while read -r name; do
        grep -qF -e "\`$name\`" -e "\`$name " "$page" || echo "$name is not on $page"
    done
)
if [ -n "$wrong" ]; then
    echo "$wrong"
    exit 1
fi
echo "$page: $(wc -l <<< "$names") names, all there"

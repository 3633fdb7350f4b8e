#!/bin/bash
# docs/REFERENCE.md against the definitions and the header, and the definitions' quotes against the documents:
# - every name File.name on the page, and on docs/MAP.md, is declared in File.antt of crate types or crate model, in specs/ or in proofs/; and every rule of these files, a
#   definition that is `unfoldable pub`, stands on the page. Every such name on docs/DECISIONS.md is declared in File.antt of some crate;
# - every call of include/skid.h has its heading on the page, every refusal its number and name in the table of refusals, and every SKID_..
#   on the page stands in the header; a number behind it in the reply's table is the header's;
# - every quote in a comment of crate model and of the files with the statements is of one of the three documents of the project. They are
#   not in the repository: SHARED_DOCS names their folder, ../shared/docs if it is not set. Without them this part is skipped, and said so.
# A quote may leave something out, "so .. far"; its pieces then stand in one document in this order. It may join whole sentences.
# Prints what is wrong, or how much it found; ends with 1 if anything is wrong. PAGE names another page, for trying this test.
cd "$(dirname "$0")/.." || exit 1
page=${PAGE:-docs/REFERENCE.md}
header=include/skid.h
rules="Head Numbers Arena Refusals Answers Foreign Lock Checks Calls Crew Sorted Salvage"
documents=${SHARED_DOCS:-../shared/docs}
quoting=(
    crates/{types,model}/specs/*.antt
    crates/model/proofs/*.antt
    crates/history/specs/{Statements,Answers}.antt
    crates/history_exact/specs/{Statements,Script,Attempts}.antt
    crates/{crew_theory,sorted_theory,crew_at_work_theory}/specs/Statements.antt
    crates/setpoint/specs/Codec.antt
    crates/book_rules/specs/{Layout,Writing,Rules,Calls,Cases}.antt
    crates/{book_theory,salvage_theory,boot_theory}/specs/Statements.antt
    crates/pinned/specs/{Words,Checks,Steps,Statements}.antt
    crates/book_pinned/specs/Statement.antt
)

# names_of PAGE..: the names File.name on it
names_of() {
    grep -ohE '`[A-Z][A-Za-z]*\.[A-Za-z][A-Za-z0-9_-]*`' "$@" | tr -d '`' | sort -u
}
# declared NAME FILE..: whether one of the files declares it
declared() {
    local name=$1
    shift
    grep -Eqs "^ *((abbrev|unfoldable) )?(pub )?((record|data) )?$name( |\$)" "$@"
}
names=$(names_of "$page")
calls=$(grep -oE '^void skid_[a-z_]+' "$header" | sed 's/^void skid_//')
# number and name of each refusal, as SKID_BAD_SHAPE = 1 says them: 1 BadShape
refusals=$(sed -n '/^enum skid_refusal/,/^}/s/^ *SKID_\([A-Z_]*\) = \([0-9]*\).*/\2 \1/p' "$header" |
    awk '{ n = split($2, part, "_"); name = ""; for (i = 1; i <= n; i++) name = name substr(part[i], 1, 1) tolower(substr(part[i], 2)); print $1, name }')
constants=$(grep -oE '`SKID_[A-Z_]+`( [0-9]+)?' "$page" | tr -d '`' | sort -u)
for found in "$names" "$calls" "$refusals" "$constants"; do
    [ -n "$found" ] || { echo "$page or $header: nothing to compare"; exit 1; }
done

wrong=$(
    while IFS=. read -r file word; do
        declared "$word" crates/{types,model}/{specs,proofs}/"$file.antt" || echo "$file.$word is in no $file.antt of crates types and model"
    done < <(names_of "$page" docs/MAP.md)
    while IFS=. read -r file word; do
        declared "$word" crates/*/{specs,proofs}/"$file.antt" || echo "docs/DECISIONS.md names $file.$word, which no crate has"
    done < <(names_of docs/DECISIONS.md | grep -vx File.name)
    for file in $rules; do
        sed -n 's/^unfoldable pub \([^ ]*\) : .*/\1/p' crates/{types,model}/{specs,proofs}/"$file.antt" 2>/dev/null | while read -r word; do
            grep -qxF "$file.$word" <<< "$names" || echo "$file.$word is not on $page"
        done
    done
    while read -r call; do
        grep -qxF "### \`$call\`" "$page" || echo "the call $call has no heading on $page"
    done <<< "$calls"
    grep -oE '^### `[a-z_]+`$' "$page" | tr -d '# `' | while read -r call; do
        grep -qxF "$call" <<< "$calls" || echo "$page has a heading for $call, which is no call of $header"
    done
    while read -r number name; do
        grep -qF "| $number | $name | " "$page" || echo "$page has no row for refusal $number, $name"
    done <<< "$refusals"
    while read -r constant number; do
        grep -Eq "\\b$constant\\b${number:+ (= )?$number\\b}" "$header" || echo "$header has no $constant${number:+ that is $number}"
    done <<< "$constants"
)

# quotes: prints FILE, line of the comment's beginning and quote, behind a tab each
quotes() {
    awk '
        function told(   n, part, i) {
            gsub(/[ \t]+/, " ", text)
            n = split(text, part, "\"")
            for (i = 2; i <= n; i += 2) print FILENAME "\t" begun "\t" (i < n ? part[i] : "(without an end) " part[i])
            text = ""
        }
        FNR == 1 && text != "" { told() }
        /^ *-- / { if (text == "") begun = FNR; line = $0; sub(/^ *-- (---- )?/, "", line); text = text " " line; next }
        text != "" { told() }
        END { if (text != "") told() }
    ' "${quoting[@]}"
}

# strangers: of the quotes on standard input, those that stand in none of the documents given
strangers() {
    awk -F'\t' '
        # where the piece stands in a document as whole words, from a place on; 0 if it does not
        function stands(piece, doc, from,   at, before, after) {
            while ((at = index(substr(doc, from), piece)) > 0) {
                at += from - 1
                before = at > 1 ? substr(doc, at - 1, 1) : ""
                after = substr(doc, at + length(piece), 1)
                if (!(before ~ /[A-Za-z0-9]/ && piece ~ /^[A-Za-z0-9]/) && !(after ~ /[A-Za-z0-9]/ && piece ~ /[A-Za-z0-9]$/)) return at
                from = at + 1
            }
            return 0
        }
        # whether the pieces of a quote, gaps between them, stand in a document in their order
        function quoted(quote, doc,   n, piece, i, from, at) {
            n = split(quote, piece, / ?\.\. ?/)
            from = 1
            for (i = 1; i <= n; i++) {
                if (piece[i] == "") continue
                if (!(at = stands(piece[i], doc, from))) return 0
                from = at + length(piece[i])
            }
            return 1
        }
        function known(quote,   d) {
            for (d = 1; d <= docs; d++) if (quoted(quote, doc[d])) return 1
            return 0
        }
        # every sentence of it by itself
        function joined(quote,   n, sentence, i) {
            n = split(quote, sentence, /\. /)
            for (i = 1; i <= n; i++) if (!known(sentence[i] (i < n ? "." : ""))) return 0
            return n > 1
        }
        FILENAME != "-" { if (FNR == 1) docs++; doc[docs] = doc[docs] " " $0; gsub(/[ \t]+/, " ", doc[docs]); next }
        !known($3) && !joined($3) { print $1 ", comment from line " $2 ": \"" $3 "\" is in no document" }
    ' "$@" -
}

if [ -e "$documents/01-scope.md" ]; then
    all=$(quotes)
    [ -n "$all" ] || { echo "no quotes"; exit 1; }
    odd=$(strangers "$documents"/{01-scope,00-work-order,02-change-requests}.md <<< "$all")
    wrong=$wrong${odd:+${wrong:+$'\n'}$odd}
    said="$(wc -l <<< "$all") quotes, all of the documents"
else
    said="the quotes are not checked, since $documents/01-scope.md is not there"
fi

if [ -n "$wrong" ]; then
    echo "$wrong"
    exit 1
fi
echo "$page: $(wc -l <<< "$names") names, $(wc -l <<< "$calls") calls, $(wc -l <<< "$refusals") refusals, all there; $said"

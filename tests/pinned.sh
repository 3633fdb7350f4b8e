#!/usr/bin/env bash
# The files that say what a build must do (crate pinned: Words, Checks, Steps, Statements; of the setpoint book, crate book_pinned: Statement) cite none of the
# definitions that they pin down. Of this repository they may name each other and types: those declared in crates types, setpoint and book_rules, and the few listed
# here, with the names of calls, events and actors. They name nothing outside their `use` lines. Ends with 1 and says what is wrong. Before it looks at the files
# it looks at damaged copies: these must be refused.
set -euo pipefail
cd "$(dirname "$0")/.."
files='pinned/Words pinned/Checks pinned/Steps pinned/Statements book_pinned/Statement'

# names DATA FILE: the constructors of a data type
names() {
    awk -v data="$1" '$0 ~ "^pub data " data " " { on = 1; next } /^[^ ]/ { on = 0 }
        on && /^ +[^- ].* : / { line = $0; sub(/ : .*/, "", line); print line }' "$2" | tr '\n' ' '
}
events="$(names Actor crates/model/specs/Log.antt) $(names Event crates/model/specs/Log.antt)"
calls=$(names Call crates/history/specs/Items.antt)
allowed() {
    case $1 in
    Rattle.model.specs.Log) echo "Event Made $events" ;;
    Rattle.history.specs.World) echo 'World' ;;
    Rattle.history.specs.Items) echo "Build Stepper Says Call $calls" ;;
    Rattle.history.specs.Statements) echo 'CrewBuild CrewAtWorkBuild' ;;
    esac
}

# looks FOLDER FILE ..: what is wrong with these files of the crates in it, a line each
looks() {
    local folder=$1 crate file path line module name
    for file in "${@:2}"; do
        crate=${file%/*} path=$folder/${file%/*}/specs/${file#*/}.antt
        [ -s "$path" ] || { echo "$file.antt is not there"; continue; }
        grep -n '^ *[^- ]' "$path" | grep -v '^[0-9]*:use ' | sed 's/ -- .*//' | grep 'Rattle[.·]' | sed "s|^|$file.antt: a name outside its use lines: |" || true
        while read -r line; do
            case $line in
            'use Rattle.std.specs.'* | 'use Rattle.types.specs.declared.'*) continue ;;
            'use Rattle.setpoint.specs.declared.'* | 'use Rattle.book_rules.specs.declared.'*) continue ;;
            esac
            module=$(sed -E 's/^use ([^ ]*)\.\{.*/\1/' <<< "$line")
            if [[ $module =~ ^Rattle\.($crate|pinned)\.specs\.(.*)$ ]]; then
                case " $files " in *" ${BASH_REMATCH[1]}/${BASH_REMATCH[2]} "*) ;; *) echo "$file.antt names the file ${BASH_REMATCH[2]}" ;; esac
                continue
            fi
            while read -r name; do
                case " $(allowed "$module") " in *" $name "*) ;; *) echo "$file.antt names $name, by ${line:0:120}" ;; esac
            done < <(sed -E 's/^use [^{]*\{//; s/\}$//' <<< "$line" | tr ',' '\n' | sed 's/^ *//; s/ *$//')
        done < <(grep '^ *\(pub \|unfoldable \|opaque \)*use ' "$path")
    done
}

# the types that they name are types
types() {
    local kind name file
    while read -r kind name file; do
        grep -q "^pub $kind $name\( \|$\)" "crates/$file" || echo "$name is no $kind of crates/$file"
    done <<< 'data Event model/specs/Log.antt
record Made model/specs/Log.antt
record World history/specs/World.antt
data Call history/specs/Items.antt
record Says history/specs/Items.antt'
}

# damaged FILE TEXT: a copy with this line behind its first use line must be refused
damaged() {
    local folder path
    folder=$(mktemp -d)
    path=${1%/*}/specs/${1#*/}.antt
    mkdir -p "$folder/${path%/*}"
    awk -v text="$2" '{ print } /^use / && !done { print text; done = 1 }' "crates/$path" > "$folder/$path"
    if [ -z "$(looks "$folder" "$1")" ]; then
        echo "tests/pinned.sh does not see: $2"
    fi
    rm -r "$folder"
}

wrong=$(
    damaged pinned/Words 'use Rattle.model.specs.Arena.{shape_fits}'
    damaged pinned/Checks 'use Rattle.model.specs.Checks as rules'
    damaged pinned/Steps 'use Rattle.types.specs.Head.{cells_of}'
    damaged pinned/Steps 'use Rattle.model.specs.Log.{Made, gives}'
    damaged pinned/Statements 'use Rattle.history.specs.Items.{Call, perform}'
    damaged pinned/Statements 'use Rattle.pinned.proofs.Decided.{matched}'
    damaged pinned/Statements 'use Rattle.pinned.specs.Same.{Same}'
    damaged pinned/Statements 'size = Rattle.types.specs.Head.cells_of'
    damaged book_pinned/Statement 'use Rattle.book_rules.specs.Layout.{is_sound}'
    damaged book_pinned/Statement 'use Rattle.book_rules.specs.Writing as writing'
    damaged book_pinned/Statement 'use Rattle.setpoint.specs.Codec.{setting_of}'
    damaged book_pinned/Statement 'use Rattle.model.specs.Arena.{shape_fits}'
    damaged book_pinned/Statement 'use Rattle.pinned.proofs.Decided.{Decides}'
    damaged book_pinned/Statement 'use Rattle.book_pinned.specs.Plain.{place_is}'
    looks crates $files
    types
)
if [ -n "$wrong" ]; then
    echo "$wrong"
    exit 1
fi
imports=$(for file in $files; do grep '^use ' "crates/${file%/*}/specs/${file#*/}.antt"; done | wc -l)
echo "pinned: $(wc -w <<< "$files") files of statements, $imports imports, none of a definition"

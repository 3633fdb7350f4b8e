#!/usr/bin/env bash
# Waveforms, `bench dump` and `bench undump`: document 02's example, every refusal and the round trip at size, on the proved build and
# on the plain build, against written texts, byte by byte; random histories and dumps on both at once, every byte and word of what is
# lent compared; what is lost. `wave.sh [INPUTS [SEED]]`: so many random histories, and as many dumps. Ends with 1 if anything is
# wrong.
set -euo pipefail
cd "$(dirname "$0")/.."
. tests/lib.sh

inputs=${1:-100}
seed=${2:-20261115}
build_plain
build_bench
room=$(mktemp -d)
trap 'rm -rf "$room"' EXIT
input=$room/input
most=2097152
asked=0 wrong=0

complain() {
    echo "$@"
    wrong=$((wrong + 1))
}

# ask NAME WORDS..: the program with these words, $input as standard input, prints to $room/out, says nothing and ends with 0
ask() {
    local name=$1 status=0
    shift
    asked=$((asked + 1))
    (bench "$@") <"$input" >"$room/out" 2>"$room/said" || status=$?
    if [ "$status" -ne 0 ] || [ -s "$room/said" ]; then
        complain "bench $*, $name: status $status, said: $(head -n 1 "$room/said")"
    fi
}

# prints WORDS NAME: what is printed, on each build, is the file $room/wanted
prints() {
    local build words
    read -r -a words <<<"$1"
    for build in '' --plain; do
        ask "$2" ${build:+"$build"} "${words[@]}"
        cmp -s "$room/wanted" "$room/out" && continue
        complain "bench $build $1, $2: NOT WHAT WAS WANTED"
        show_difference "$room/wanted" "$room/out"
    done
}

# says WORDS NAME LINE..: these lines are printed
says() {
    local which=$1 name=$2
    shift 2
    printf '%s\n' "$@" >"$room/wanted"
    prints "$which" "$name"
}

# steps COUNT LINE: that line so many times
steps() {
    awk -v n="$1" -v line="$2" 'BEGIN { for (i = 0; i < n; i++) print line }'
}

# ---- document 02's example, to the byte, and back

paper=('$timescale 1 ns $end' '$scope module t $end' '$var wire 1 ! c0 $end' '$var wire 1 " c1 $end' '$upscope $end'
    '$enddefinitions $end' '#0' '0!' '0"')
printf '2\n1 0 7\n' >"$input"
says dump 'the example' "${paper[@]}" '#1' '1!'
cp "$room/out" "$input"
says undump 'the example' 2 '1 0 0'
printf '2\n1 0 7' >"$input"
says dump 'the last line without its line feed' "${paper[@]}" '#1' '1!'
printf '2\n' >"$input"
says dump 'no steps' "${paper[@]}"
cp "$room/out" "$input"
says undump 'no steps' 2
printf '2\n0 0 0\n2 0 0\n1 1 9\n1 1 9\n3 0 1\n1 2 0\n2 1 4\n5 0 0\n' >"$input"
says dump 'steps that only count' "${paper[@]}" '#3' '1"' '#7' '0"'
cp "$room/out" "$input"
says undump 'up to the last change' 2 '0 0 0' '0 0 0' '1 1 0' '0 0 0' '0 0 0' '0 0 0' '2 1 0'

# ---- what dump refuses: the first line not understood; then 2, TooWide, NoRoom

: >"$input"
says dump 'empty input' 'line 1: not understood'
for line in '' '#' 'x' ' 2' '2 ' '02' '-1' '2 3 4' '2  3' '4294967296' $'2\r' '2 x' '2 03'; do
    printf '%s\n1 0 0\n' "$line" >"$input"
    says dump "first line '$line'" 'line 1: not understood'
done
for line in '' '#' '1 0' '1 0 0 0' '1 0 0 ' ' 1 0 0' '1  0 0' '1 0 00' '1 0 4294967296' 'take 0 0' $'1 0 0\r' \
    $'1\t0 0'; do
    printf '0\n1 0 0\n%s\n1 0 x\n' "$line" >"$input"
    says dump "third line '$line'" 'line 3: not understood'
done
{ echo 2; steps 32768 '0 4294967295 4294967295'; } >"$input"
says dump '32,768 steps' "${paper[@]}"
{ echo 0; steps 32769 '1 0 0'; } >"$input"
says dump '32,769 steps: 2, before TooWide' 'refused 2 BadScript 0'
{ echo '2 0'; steps 32800 '1 0 0'; } >"$input"
says dump '32,800 steps: 2, before NoRoom' 'refused 2 BadScript 0'
{ echo 2; steps 32801 '1 0 0'; } >"$input"
says dump '32,801 steps' 'line 32802: not understood'
for cells in 0 95 4294967295; do
    printf '%s 0\n1 0 0\n' "$cells" >"$input"
    says dump "$cells cells: TooWide, before NoRoom" 'refused TooWide'
done
printf '2 136\n1 0 7\n' >"$input"
says dump 'as much room as the example needs' "${paper[@]}" '#1' '1!'
size=$(wc -c <"$room/out")
[ "$size" = 136 ] || complain "the example has $size bytes, and the test takes it to have 136"
printf '2 135\n1 0 7\n' >"$input"
says dump 'one byte less' 'refused NoRoom'
printf '2 4294967295\n1 0 7\n' >"$input"
says dump 'any room' "${paper[@]}" '#1' '1!'

# ---- what undump refuses: the first wrong line

# bad K NAME LINE..: behind the example's first nine lines these; K is wrong
bad() {
    local k=$1 name=$2
    shift 2
    printf '%s\n' "${paper[@]}" "$@" >"$input"
    says undump "$name" "refused BadLine $k"
}
: >"$input"
says undump 'empty input' 'refused BadLine 1'
printf 'x' >"$input"
says undump 'one byte' 'refused BadLine 1'
bad 10 'a padded time' '#07' '1!'
bad 10 'a time with text behind it' '#7x' '1!'
bad 10 'time 0' '#0' '1!'
bad 10 'a time too late' '#32769' '1!'
bad 10 'a change without its time line' '1!'
bad 10 'an empty line' '' '#1' '1!'
bad 11 'a time line without a change' '#1' '#2' '1!'
bad 11 'a bit that did not change' '#1' '0!'
bad 11 'a cell that is not there' '#1' '1#'
bad 11 'the text stops behind a time line' '#1'
bad 12 'two changes at one time' '#1' '1!' '1"'
bad 12 'a time twice' '#1' '1!' '#1' '1"'
bad 12 'a time that is not later' '#2' '1!' '#1' '1"'
printf '%s\n' "${paper[@]}" '#1' '1!' | head -c -1 >"$input"
says undump 'the last line lacks its line feed' 'refused BadLine 11'
printf '%s\n' "${paper[@]}" '#32768' '1!' >"$input"
{ echo 2; steps 32767 '0 0 0'; echo '1 0 0'; } >"$room/wanted"
prints undump 'the last time there can be'
for k in 1 2 3 4 5 6 7 8; do
    printf '%s\n' "${paper[@]}" | head -n "$k" >"$input"
    says undump "$k lines of the head" "refused BadLine $((k + 1))"
    printf '%s\n' "${paper[@]}" | sed "${k}s/./x/" >"$input"
    says undump "line $k of the head wrong" "refused BadLine $k"
done

# ---- cells and room as words of the command: the input has the steps alone

printf '1 0 7\n' >"$input"
says 'dump 2' 'the example, cells given' "${paper[@]}" '#1' '1!'
says 'dump 2 136' 'the example, cells and room given' "${paper[@]}" '#1' '1!'
says 'dump 2 135' 'one byte less, given' 'refused NoRoom'
says 'dump 95' 'too many cells, given' 'refused TooWide'
printf '2\n1 0 7\n' >"$input"
says 'dump 2' 'a first line that is no step' 'line 1: not understood'
printf '1 0 7\nx\n' >"$input"
says 'dump 2' 'a step that is none' 'line 2: not understood'
: >"$input"
says 'dump 2' 'no input, cells given' "${paper[@]}"

# ---- input at the limit

head -c $most /dev/zero | tr '\0' '1' >"$input"
says dump '2 MiB' 'line 1: not understood'
says undump '2 MiB' 'refused BadLine 1'
printf 1 >>"$input"
for name in dump undump; do says $name '2 MiB and a byte' 'input too long'; done

# ---- what is lost, and words that are none

# fails NAME STATUS SAID WORDS..: ends so, prints nothing and says this on standard error
fails() {
    local name=$1 wanted=$2 said=$3 status=0
    shift 3
    asked=$((asked + 1))
    (bench "$@") >"$room/out" 2>"$room/said" || status=$?
    [ "$status" = "$wanted" ] || complain "bench $*, $name: status $status, not $wanted"
    [ ! -s "$room/out" ] || complain "bench $*, $name: printed something"
    grep -q -e "$said" "$room/said" || complain "bench $*, $name: does not say '$said'"
}
for name in dump undump; do
    fails 'a directory as input' 2 '^bench: input lost$' $name <.
    status=0
    (bench $name) </dev/null >/dev/full 2>"$room/said" || status=$?
    [ "$status,$(cat "$room/said")" = '2,bench: output lost' ] || complain "bench $name, a full disk: status $status, said $(cat "$room/said")"
done
for words in 'dump x' 'dump 02' 'dump 2 x' 'dump 2 3 4' 'undump 2'; do
    read -r -a one <<<"$words"
    fails "words that are none" 2 '^bench: ' "${one[@]}" </dev/null
done

# ---- the round trip at size: 94 cells, 32,768 steps, each a change

target/rust/release/waves largest "$seed" >"$input"
[ "$(head -n 1 "$input"), $(wc -l <"$input")" = '94, 32769' ] || complain 'the largest history is not the largest'
sed '2,$s/ [0-9]*$/ 0/' "$input" >"$room/wanted"
cp "$room/wanted" "$room/largest"
ask 'the largest history' dump
[ "$(grep -c '^#' "$room/out")" = 32769 ] || complain 'the largest dump has not a time line for each step'
cp "$room/out" "$room/text"
cp "$room/out" "$input"
prints undump 'the largest dump'
cp "$room/largest" "$input"
cp "$room/text" "$room/wanted"
prints dump 'the largest dump, from what was read'

# ---- random input, on both builds at once

dumps=0 readings=0 refusals=0
for ((i = 0; i < inputs; i++)); do
    target/rust/release/waves history $((seed + i)) >"$input"
    ask "history $((seed + i))" --both dump
    case $(head -n 1 "$room/out") in '$timescale '*) dumps=$((dumps + 1)) ;; *) refusals=$((refusals + 1)) ;; esac
    target/rust/release/waves dump $((seed + i)) >"$input"
    ask "dump $((seed + i))" --both undump
    case $(head -n 1 "$room/out") in [0-9]*) readings=$((readings + 1)) ;; *) refusals=$((refusals + 1)) ;; esac
done
# of a hundred of each there are some of each kind
if [ "$inputs" -ge 100 ] && { [ "$dumps" -lt 10 ] || [ "$readings" -lt 10 ] || [ "$refusals" -lt 10 ]; }; then
    complain "of the random inputs only $dumps were written, $readings read, $refusals refused"
fi

if [ "$wrong" -gt 0 ]; then
    echo "wave: $wrong not as expected"
    exit 1
fi
echo "wave: $asked inputs, as expected; the example and the largest dump read back; of the random ones" \
    "$dumps written, $readings read, $refusals refused"

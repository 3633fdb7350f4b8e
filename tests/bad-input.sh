#!/usr/bin/env bash
# Bad input, and input at the limits, on the proved build and on the plain build: what is printed must be the text that stands here or
# is computed here a second way, byte by byte, and standard error and the status must be those of that text. Ends with 1 if anything
# is wrong.
set -euo pipefail
cd "$(dirname "$0")/.."
. tests/lib.sh

build_bench
room=$(mktemp -d)
trap 'rm -rf "$room"' EXIT
input=$room/input
most=1310720

inputs=0 lines=0 wrong=0

# prints NAME: the input $input prints the file $room/wanted, on each build
prints() {
    inputs=$((inputs + 1))
    lines=$((lines + $(wc -l <"$room/wanted")))
    plays "$1" "$input" "$room/wanted" || wrong=$((wrong + 1))
    plays "$1" "$input" "$room/wanted" --plain || wrong=$((wrong + 1))
}

# says NAME LINE..: these lines are printed; none: nothing is printed
says() {
    local name=$1
    shift
    : >"$room/wanted"
    if [ $# -gt 0 ]; then printf '%s\n' "$@" >"$room/wanted"; fi
    prints "$name"
}

# all_bad NAME: no line of the input is understood
all_bad() {
    awk '{ print "line " NR ": not understood" }' "$input" >"$room/wanted"
    prints "$1"
}

# numbers COUNT [NUMBER]: so many words, each behind a space; without NUMBER they count up from 0
numbers() {
    awk -v n="$1" -v v="${2-}" 'BEGIN { for (i = 0; i < n; i++) printf " %s", (v == "" ? i : v) }'
}

# of_length COUNT BYTE: that byte so many times
of_length() {
    head -c "$1" /dev/zero | tr '\0' "$2"
}

counts='attempts 0 boundaries 0 yields 0 dropped 0'

# rubbish SEED: what `ram SEED` leaves, a number a line: table, health, book. It goes to $room/ram.
rubbish() {
    awk -v x="$1" 'BEGIN {
        for (i = 0; i < 12600 + 70 + 33000; i++) {
            x = (x * 1664525 + 1013904223) % 4294967296
            printf "%.0f\n", i < 12600 ? x : int(x / 65536) % 256
        }
    }' >"$room/ram"
}

# now INDEX VALUE: one number of $room/ram is now another, counted from 0
now() {
    sed -i "$(($1 + 1))s/.*/$2/" "$room/ram"
}

# shown HEAD WORDS BYTES: what `show` prints, under this head, of so many table words and health bytes of $room/ram
shown() {
    echo "head $1"
    awk -v words="$2" -v bytes="$3" '
        NR <= words { cell = cell " " $1; if (NR % 3 == 0) { if (cell != " 0 0 0") print "cell " NR / 3 - 1 cell; cell = "" } }
        NR > 12600 && NR <= 12600 + bytes && $1 != 0 { print "health", NR - 12601, $1 }' "$room/ram"
}

# shown_book BYTES: what `show_book` prints of so many bytes of the book in $room/ram
shown_book() {
    echo "book $1"
    awk -v bytes="$1" '
        function stretch() { if (any) print "at " first text; text = ""; any = 0 }
        NR > 12670 && NR <= 12670 + bytes {
            at = NR - 12671
            if (at % 16 == 0) { stretch(); first = at }
            text = text " " $1
            any += $1
        }
        END { stretch() }' "$room/ram"
}

# read_lines: what the lines of $input print where nothing is prepared, read a second way. It knows the words of the rubbish below.
read_lines() {
    LC_ALL=C tr '\0' '\1' <"$input" | LC_ALL=C awk -v counts="$counts" '
        function number(word) { return word ~ /^(0|[1-9][0-9]*)$/ && (length(word) < 10 || length(word) == 10 && word "" <= "4294967295") }
        BEGIN { place = "0" }
        $0 == "" || /^#/ { next }
        {
            n = split($0, words, /[ ]/) - 1
            what = words[1]
            for (i = 2; i <= n + 1; i++) if (!number(words[i])) what = ""
            if (what == "show" && n == 0) print "head 0 0 0 0"
            else if (what == "place" && n == 1) place = words[2]
            else if (what == "script" && n <= 98400) place = "0"
            else if (what == "held" && n <= 300 || what == "lend" && n == 0) next
            else if (what == "try_lock" && n == 1) print "refused 1 BadShape 0 next 0 place " place " " counts
            else if (what == "lend" && n == 2 || what == "prepare" && n == 4) { print "the second reading stops at " $0; exit }
            else print "line " NR ": not understood"
        }'
}

# ---- Nothing, and lines that say nothing

: >"$input"
says 'empty input'
printf '\n\n\n' >"$input"
says 'empty lines'
printf '#\n# a comment\n#\t\r\0\377\n#' >"$input"
says 'comments'
printf 'show' >"$input"
says 'last line without line feed' 'head 0 0 0 0'
printf '\n#\nshow\nshow x' >"$input"
says 'every line counts' 'head 0 0 0 0' 'line 4: not understood'

# ---- Spaces, tabs, carriage returns

printf '%s\n' ' ' '  ' ' show' 'show ' 'show  ' $'\tshow' $'show\t' $'show\r' $'\r' $'\t' ' # no comment' $'\t#' \
    'place  1' 'place 1 ' ' place 1' $'place\t1' $'place 1\t' $'place\r1' $'place 1\r' 'script 5  0 0' 'script 5 0 0 ' 'script ' \
    'held ' 'member ' 'lend ' $'lend\r' 'lend 3  1' $'show\vx' $'show\f' $'show\240' >"$input"
all_bad 'spaces that are none'
printf 'prepare 2 4 1 7\r\nplace 0\r\n\r\n#\r\nshow\r\n' >"$input"
says 'carriage returns before line feeds' 'line 1: not understood' 'line 2: not understood' 'line 3: not understood' 'line 5: not understood'
printf 'show\rshow' >"$input"
says 'a carriage return ends no line' 'line 1: not understood'
printf 'show\0\n\0\nsh\0ow\n' >"$input"
says 'zero bytes' 'line 1: not understood' 'line 2: not understood' 'line 3: not understood'

# ---- Bytes of all kinds

for number in 4294967296 4294967297 4294967300 9999999999 42949672950 18446744073709551615 18446744073709551616 99999999999999999999999 \
    00 01 007 000000000000 04294967295 -1 -0 +1 +0 1. 1.0 1e3 0x1 1_000 1,000 a 1a '' ''\''1' '１'; do
    printf 'place %s\nram %s\nhead 1 1 %s 1\nhead 1 1 1 %s\nheld 1 %s\nheld %s 1\ntry_acquire %s\nprepare %s 1 1 1\nprepare 1 1 1 %s\ndrop_lease 1 1 %s\nmember %s\n' \
        "$number" "$number" "$number" "$number" "$number" "$number" "$number" "$number" "$number" "$number" "$number"
done >"$input"
all_bad 'numbers that are none'
printf 'head 4294967295 4294967295 4294967295 4294967295\nplace 4294967295\nshow\nlend 3 1\nenvironment\nhead 0 0 0 0\nplace 0\nenvironment\n' >"$room/part"
{
    cat "$room/part"
    printf 'word 0 4294967295\nword 1 0\nword 2 10\nbyte 0 255\nshow\n'
} >"$input"
rubbish 1
{
    shown '4294967295 4294967295 4294967295 4294967295' 12600 70
    printf '%s\n' "refused 1 BadShape 0 next 4294967295 place 4294967295 $counts" "refused 1 BadShape 0 next 0 place 0 $counts" \
        'head 0 0 0 0' 'cell 0 4294967295 0 10' 'health 0 255'
} >"$room/wanted"
prints 'the greatest number'
sed '/^show/d' "$room/part" >"$input"
says 'the greatest number, refused' "refused 1 BadShape 0 next 4294967295 place 4294967295 $counts" "refused 1 BadShape 0 next 0 place 0 $counts"

bytes=''
for byte in {0..255}; do
    printf -v one '\\%03o' "$byte"
    bytes+=$one
done
printf "$bytes" >"$input"
says 'all bytes' 'line 1: not understood' 'line 2: not understood'
for byte in {0..255}; do
    printf -v one '\\%03o' "$byte"
    printf "$one\nshow$one\n${one}show\nplace ${one}1\nplace 1$one\nsho${one}w\n"
done >"$input"
read_lines >"$room/wanted"
# counted by hand: the line feed makes two lines `show`, and four that are not understood; of the # two lines are remarks; of the
# other 254 bytes all six lines are not understood, but for `place 11` to `place 91` and `place 10` to `place 19`
[ "$(sort "$room/wanted" | sed 's/line .*:/line/' | uniq -c | tr -s ' \n' ' ')" = " 2 head 0 0 0 0 $((4 + 4 + 254 * 6 - 19)) line not understood " ] || {
    echo 'each byte at each place: the second reading is not as counted by hand'
    wrong=$((wrong + 1))
}
prints 'each byte at each place'
x=20261115
for shape in 1 2 3 4 5 6 7 8; do
    for _ in {1..3000}; do
        x=$(((x * 1664525 + 1013904223) & 0xffffffff))
        byte=$((x >> 16 & 255))
        # the later shapes are closer to text: digits, spaces, line feeds, letters of the commands
        if [ "$shape" -gt 3 ] && [ $((x >> 24 & 3)) -ne 0 ]; then
            set -- ' ' '\n' 0 1 2 9 show place held lend script try_lock prepare 5
            shift $((byte % 14))
            printf '%b' "$1"
        else
            printf -v one '\\%03o' "$byte"
            printf "$one"
        fi
    done >"$input"
    read_lines >"$room/wanted"
    prints "rubbish $shape"
done

# ---- Words too many and too few, of every command and call

while read -r word least most_numbers; do
    for count in 0 1 2 3 4 5; do
        if [ "$count" -lt "$least" ] || [ "$count" -gt "$most_numbers" ]; then echo "$word$(numbers "$count" 1)"; fi
    done
done >"$input" <<'TABLE'
ram 1 1
head 4 4
word 2 2
byte 2 2
place 1 1
grants 1 1
crewless 0 0
show 0 0
map 0 0
echo 1 1
help 0 0
prepare 4 4
try_acquire 1 1
drop_lease 3 3
read_permission 3 3
competing_acquire_is_excluded 3 3
release_then_handoff 3 3
foreign_release_between_attempts 3 3
acquire_preserving_borrows 1 1
drop_preserving_borrows 3 3
environment 0 0
environment_for_borrows 0 0
try_lock 1 1
other_mutex_preserves_leases 1 1
transactional_try_lock_bucket 2 2
acquire_index_bucket 2 2
release_all 0 0
acquire_index_locks 0 0
acquire_sorted_locks 0 0
crew 0 0
book 1 1
book_byte 2 2
show_book 0 0
prepare_book 0 0
read_setpoint 1 1
read_version 2 2
crew_at_work 0 0
report 1 1
unconfirmed 1 1
salvage 0 0
TABLE
# of a setpoint one word is no number
for count in 0 1 2 3 4 5 6 7; do echo "write_setpoint$(numbers "$count" 1)"; done >>"$input"
printf 'lend 1\nlend 0\nlend 1 2 3\nlend x\nlend 1 x\necho 2\necho 256\necho 4294967295\necho 4294967296\necho 01\necho x\necho\n' >>"$input"
all_bad 'too many and too few words'
for word in ram lend head word byte registry held keys leases turns script place grants member crewless show map echo help prepare try_acquire drop_lease read_permission \
    competing_acquire_is_excluded release_then_handoff foreign_release_between_attempts acquire_preserving_borrows drop_preserving_borrows environment \
    environment_for_borrows try_lock other_mutex_preserves_leases transactional_try_lock_bucket acquire_index_bucket release_all acquire_index_locks acquire_sorted_locks crew \
    book book_byte show_book prepare_book read_setpoint read_version write_setpoint counters crew_at_work report unconfirmed salvage; do
    # the right count of numbers, the word wrong: longer, shorter, of capitals
    for rest in '' ' 1' ' 1 1' ' 1 1 1' ' 1 1 1 1'; do
        printf '%s\n' "${word}x$rest" "${word%?}$rest" "x$word$rest" "${word#?}$rest" "${word^}$rest" "${word^^}$rest" "$word.$rest"
    done
done >"$input"
# a word made shorter is none of the others
all_bad 'words nearly right'

# ---- The rooms: as long as fits, and one more. Each list is asked for by a call.

# room_of NAME WORD ROOM BEFORE AFTER: a list of ROOM numbers, each 0, is understood between these lines, and one number more is not.
# Two files say what is then printed: $room/fits behind the line of the preparation, $room/more behind that and the line of the list.
room_of() {
    local before
    before=$(printf '%s\n' "$4" | wc -l)
    { printf '%s\n' "$4"; echo "$2$(numbers "$3" 0)"; printf '%s\n' "$5"; } >"$input"
    { echo "done next 1 place 0 $counts"; cat "$room/fits"; } >"$room/wanted"
    prints "$1, as long as fits"
    { printf '%s\n' "$4"; echo "$2$(numbers "$(($3 + 1))" 0)"; printf '%s\n' "$5"; } >"$input"
    { echo "done next 1 place 0 $counts"; echo "line $((before + 1)): not understood"; cat "$room/more"; } >"$room/wanted"
    prints "$1, one more"
}

# fits LINE.., more LINE..: the two files
fits() {
    printf '%s\n' "$@" >"$room/fits"
}
more() {
    printf '%s\n' "$@" >"$room/more"
}

arena=$'prepare 2 4 1 7\nregistry 0 1 1'
quiet='done next 1 place 0 attempts 0 boundaries 1 yields 0 dropped 0'
fits "refused 1 BadShape 0 next 1 place 0 $counts"
more "refused 5 BadBinding 0 next 1 place 0 $counts"
room_of registry registry 80 'prepare 2 4 1 7' 'transactional_try_lock_bucket 0 0'
fits "refused 2 BadScript 0 next 1 place 0 $counts"
more "$quiet"
room_of script script 98400 "$arena" environment
fits "refused 3 BadHeld 100 next 1 place 0 $counts"
room_of held held 300 "$arena" environment
fits "refused 4 TooMany 0 next 1 place 0 $counts" grants
more "granted next 1 place 0 $counts" grants
room_of keys keys 200 "$arena" acquire_index_locks
room_of 'keys, sorted' keys 200 "$arena" acquire_sorted_locks
fits "refused 4 TooMany 0 next 1 place 0 $counts"
more "done next 1 place 0 $counts"
room_of leases leases 300 "$arena" release_all
fits 'refused 15 BadCrew 0 next 1'
more 'crew moving 0 idle 0 next 1' 'member 0 taken 0 released 0'
room_of turns turns 70000 "$arena"$'\nmember 1' crew
fits 'refused 1 BadShape 0 next 1' "counters$(numbers 4200 0)"
more 'refused 1 BadShape 0 next 1' counters
room_of counters counters 4200 "$arena"$'\nmember 1' crew_at_work
fits 'refused 15 BadCrew 0 next 1'
more 'refused 15 BadCrew 0 next 1'
room_of member member 70 "$arena" crew

# what document 01 allows at most, and one more
{
    printf 'prepare 64 64 1 1\n'
    echo "registry$(numbers 64)"
    printf 'transactional_try_lock_bucket 63 63\ntransactional_try_lock_bucket 64 0\n'
    echo "registry$(numbers 65)"
    printf 'transactional_try_lock_bucket 63 62\n'
    echo "script$(numbers 98304 0)"
    printf 'environment\nplace 32768\nenvironment\nplace 32769\nenvironment\n'
    echo "script$(numbers 98307 0)"
    printf 'environment\nscript\n'
    echo "held$(numbers 192 1)"
    printf 'environment\n'
    echo "held$(numbers 195 1)"
    printf 'environment\n'
    echo "held$(numbers 196 1)"
    printf 'environment\nheld\n'
    echo "registry$(numbers 64)"
    echo "keys$(numbers 128 1)"
    printf 'grants 192\nacquire_index_locks\n'
    echo "keys$(numbers 130 1)"
    printf 'grants 195\nacquire_index_locks\nacquire_sorted_locks\ngrants 300\nacquire_index_locks\nacquire_sorted_locks\n'
    echo "leases$(numbers 192 1)"
    printf 'release_all\n'
    echo "leases$(numbers 195 1)"
    printf 'release_all\n'
    echo "member$(numbers 64)"
    printf 'turns 0\ncrew\ncrewless\n'
    echo "member$(numbers 65)"
    printf 'crew\ncrewless\n'
    for _ in {1..16}; do echo "member$(numbers 16)"; done
    printf 'crew\nmember\ncrew\ncrewless\nmember 1\n'
    echo "turns$(numbers 65536 0)"
    printf 'crew\n'
    echo "turns$(numbers 65537 0)"
    printf 'crew\nshow\n'
} >"$input"
{
    echo "done next 1 place 0 $counts"
    # header 63 and bucket 63 are cell 4095, the last; then a binding too many, and a registry of 65
    echo 'granted 4095 1 1 next 2 place 0 attempts 1 boundaries 3 yields 0 dropped 0'
    echo "refused 5 BadBinding 0 next 2 place 0 $counts"
    echo "refused 1 BadShape 0 next 2 place 0 $counts"
    # 32,768 steps that only observe, in one boundary; at their end, past it, a step more
    echo 'done next 2 place 32768 attempts 0 boundaries 1 yields 0 dropped 0'
    echo 'done next 2 place 32768 attempts 0 boundaries 1 yields 0 dropped 0'
    echo "refused 2 BadScript 0 next 2 place 32769 $counts"
    echo "refused 2 BadScript 0 next 2 place 0 $counts"
    # 64 leases, the first of which is not live; 65; 65 and a word
    echo "refused 3 BadHeld 0 next 2 place 0 $counts"
    echo "refused 3 BadHeld 65 next 2 place 0 $counts"
    echo "refused 3 BadHeld 65 next 2 place 0 $counts"
    # 64 keys are not too many: the first takes cell 65, the second finds it held
    echo 'refused 11 SerializationFailure 4096 held 2 at 1 next 3 place 0 attempts 4097 boundaries 12356 yields 64 dropped 0'
    echo "grants$(numbers 192 9)"
    # 65 keys, with a buffer of the right length and with another
    for words in 195 195 300 300; do
        echo "refused 4 TooMany 0 next 3 place 0 $counts"
        echo "grants$(numbers "$words" 9)"
    done
    # 64 leases, the first of which is not live; 65
    echo "refused 12 NotHeld 0 next 3 place 0 $counts"
    echo "refused 4 TooMany 0 next 3 place 0 $counts"
    # a member of 64 cells takes the first; one of 65 is refused
    printf '%s\n' 'crew moving 1 idle 0 next 4' 'member 0 taken 1 released 0' 'refused 15 BadCrew 0 next 4'
    # 16 members; cell 0 is held since then; 17
    echo 'crew moving 0 idle 1 next 4'
    for member in {0..15}; do echo "member $member taken 0 released 0"; done
    echo 'refused 15 BadCrew 0 next 4'
    # 65,536 turns, of which the first takes and the second releases; one more
    printf '%s\n' 'crew moving 2 idle 65534 next 5' 'member 0 taken 1 released 1' 'refused 15 BadCrew 0 next 5'
    printf '%s\n' 'head 64 64 5 1' 'cell 0 1 3 0' 'cell 4095 1 1 0'
} >"$room/wanted"
prints 'limits of document 01'

# Refusal 11 with the reason `after`. 4,095 attempts find the cell held: each has two boundaries and a spin, each 64th a yield before
# that, so 12,348 boundaries. The last attempt finds it released in its first boundary, and waited for in its third; a yield and a
# spin follow, 12,353 in all.
{
    printf 'prepare 1 2 1 7\nregistry 0 0\ntry_acquire 1\n'
    echo "script$(numbers 12348 '5 0 0') 2 1 1 5 0 0 5 0 0 3 1 1"
    printf 'acquire_index_bucket 1 1\nword 5 0\ntry_acquire 1\n'
    echo "script$(numbers 12348 '5 0 0') 2 1 3 5 0 0 5 0 0 3 1 2"
    printf 'keys 1 1\ngrants 3\nacquire_index_locks\nword 5 0\ntry_acquire 1\n'
    # multi-lock takes cell 0 first, with three boundaries; then it gives it back
    echo "script$(numbers 12351 '5 0 0') 2 1 5 5 0 0 5 0 0 3 1 2"
    printf 'keys 1 1 0 0\ngrants 6\nacquire_sorted_locks\nshow\n'
} >"$input"
says 'refusal 11, after' "done next 1 place 0 $counts" 'granted 1 1 7 next 2 place 0 attempts 1 boundaries 0 yields 0 dropped 0' \
    'refused 11 SerializationFailure 4096 after 2 next 3 place 12352 attempts 4096 boundaries 12353 yields 64 dropped 0' \
    'granted 1 3 7 next 4 place 12352 attempts 1 boundaries 0 yields 0 dropped 0' \
    'refused 11 SerializationFailure 4096 after 4 at 0 next 5 place 12352 attempts 4096 boundaries 12353 yields 64 dropped 0' 'grants 9 9 9' \
    'granted 1 5 7 next 6 place 12352 attempts 1 boundaries 0 yields 0 dropped 0' \
    'refused 11 SerializationFailure 4096 after 7 at 0 next 8 place 12355 attempts 4097 boundaries 12357 yields 64 dropped 0' 'grants 9 9 9 9 9 9' \
    'head 1 2 8 7' 'cell 1 0 0 2'

# the sorted call: keys count as typed, 64 of one cell are not too many, with one held lease they are
{
    printf 'prepare 2 4 1 8\nregistry 0 1 1\ntry_acquire 7\n'
    echo "keys$(numbers 128 1)"
    printf 'grants 192\nacquire_sorted_locks\nheld 7 1 8\nacquire_sorted_locks\n'
    echo "keys$(numbers 126 2)"
    printf 'grants 189\nacquire_sorted_locks\nkeys 4294967295 0\ngrants 3\nacquire_sorted_locks\nkeys 0 4294967295\nacquire_sorted_locks\nregistry 4294967295\nacquire_sorted_locks\n'
} >"$input"
says 'sorted keys at the limit' "done next 1 place 0 $counts" 'granted 7 1 8 next 2 place 0 attempts 1 boundaries 0 yields 0 dropped 0' \
    'granted next 3 place 0 attempts 1 boundaries 3 yields 0 dropped 0' "grants$(numbers 64 '5 2 8')" \
    "refused 4 TooMany 0 next 3 place 0 $counts" "grants$(numbers 64 '5 2 8')" \
    'granted next 4 place 0 attempts 1 boundaries 3 yields 0 dropped 0' "grants$(numbers 63 '6 3 8')" \
    "refused 5 BadBinding 0 next 4 place 0 $counts" 'grants 9 9 9' "refused 8 InvalidBucket 4294967295 at 0 next 4 place 0 $counts" 'grants 9 9 9' \
    "refused 6 BadHeader 4294967295 at 0 next 4 place 0 $counts" 'grants 9 9 9'

# grants, members
printf 'prepare 2 4 1 7\ngrants 300\nacquire_index_locks\ngrants 301\ngrants 4294967295\nacquire_index_locks\n' >"$input"
nines=grants$(numbers 300 9)
says 'grant buffer' "done next 1 place 0 $counts" "refused 4 TooMany 0 next 1 place 0 $counts" "$nines" 'line 4: not understood' 'line 5: not understood' \
    "refused 4 TooMany 0 next 1 place 0 $counts" "$nines"
{
    for _ in {1..20}; do echo 'member 1'; done
    printf 'member\nmember 1\ncrewless\nmember\n'
} >"$input"
says 'a member too many' 'line 21: not understood' 'line 22: not understood'

# words, bytes, lending
printf 'lend 12600 70\nword 12599 7\nword 12600 7\nword 4294967295 7\nbyte 69 255\nbyte 69 256\nbyte 70 0\nbyte 70 255\nbyte 4294967295 0\nshow\n' >"$input"
rubbish 1
now 12599 7
now $((12600 + 69)) 255
{ printf 'line %s: not understood\n' 3 4 6 7 8 9; shown '0 0 0 0' 12600 70; } >"$room/wanted"
prints 'ends of table and health'
# counters: the greatest, one more, and a list with one that is none
{
    printf 'prepare 1 3 1 7\nmember 0\nturns 0 0 0\ncounters 65535 0 1\ncrew_at_work\n'
    for bad in 65536 4294967295 4294967296 x -1 01 ''; do printf 'counters %s\ncounters 1 2 %s\ncounters %s 1 2\n' "$bad" "$bad" "$bad"; done
    printf 'crew_at_work\ncounters\ncrew_at_work\n'
    echo "counters$(numbers 4200 65535)"
    printf 'crew_at_work\nlend 12600 70\ncrew_at_work\n'
} >"$input"
# 65,535 and 65,535 are 65,534 where sums wrap at 65,536, and twice that is 65,532; a counter is missing; there are too many
{
    printf '%s\n' "done next 1 place 0 $counts" 'crew moving 3 idle 0 next 2' 'member 0 taken 1 released 1' 'counters 65534 0 1'
    for line in {6..26}; do echo "line $line: not understood"; done
    printf '%s\n' 'crew moving 3 idle 0 next 3' 'member 0 taken 1 released 1' 'counters 65532 0 1' 'refused 1 BadShape 0 next 3' counters
    for _ in 1 2; do printf '%s\n' 'refused 1 BadShape 0 next 3' "counters$(numbers 4200 65535)"; done
} >"$room/wanted"
prints 'counters'
# a salvage's report and list: their rooms, one more, and the largest arena with every word and byte to be changed
{
    for bad in 37201 4294967295 4294967296 x -1 01 '' ' 1' '1 1' '1 '; do echo "report $bad"; done
    for bad in 4201 37200 4294967295 4294967296 x -1 01 '' ' 1' '1 1' '1 '; do echo "unconfirmed $bad"; done
    printf '%s\n' 'salvage 0' 'salvage ' ' salvage' $'salvage\r' 'salvage report' 'report salvage' $'report\t1' $'unconfirmed\t1'
} >"$input"
all_bad 'rooms of a salvage that are none'
printf 'salvage\nreport 37200\nunconfirmed 4200\nsalvage\nreport 37201\nunconfirmed 4201\nsalvage\nprepare 1 1 1 7\nsalvage\nreport 0\nunconfirmed 0\nsalvage\n' >"$input"
full="report$(numbers 37200 9)" list="unconfirmed$(numbers 4200 9)"
says 'rooms of a salvage' 'refused 1 BadShape 0 next 0' report unconfirmed 'refused 1 BadShape 0 next 0' "$full" "$list" 'line 5: not understood' \
    'line 6: not understood' 'refused 1 BadShape 0 next 0' "$full" "$list" "done next 1 place 0 $counts" 'done 0 0 next 1' "$full" "$list" \
    'done 0 0 next 1' report unconfirmed
{
    printf 'prepare 64 64 1 7\n'
    # bit 2, owner 3 and waiters 4 in each cell, 5 in each byte
    awk 'BEGIN { for (i = 0; i < 12288; i++) print "word", i, i % 3 + 2; for (i = 0; i < 64; i++) print "byte", i, 5 }'
    printf 'report 37055\nunconfirmed 4200\nsalvage\nreport 37056\nunconfirmed 0\nsalvage\nsalvage\n'
} >"$input"
entries="report$(awk 'BEGIN { for (i = 0; i < 12288; i++) printf " %d %d 0", i, i % 3 + 2; for (i = 0; i < 64; i++) printf " %d 5 1", 12288 + i }')"
says 'the longest report' "done next 1 place 0 $counts" 'refused ReportFull next 1' "report$(numbers 37055 9)" "$list" 'done 12352 0 next 1' "$entries" \
    unconfirmed 'done 0 0 next 1' "$entries" unconfirmed
{
    printf 'prepare 64 64 4097 7\n'
    # each cell held by a serial of its own
    awk 'BEGIN { for (i = 0; i < 4096; i++) { print "word", 3 * i, 1; print "word", 3 * i + 1, i + 1 } }'
    printf 'unconfirmed 4095\nsalvage\nunconfirmed 4096\nsalvage\nhead 64 64 4096 7\nreport 6\nsalvage\n'
} >"$input"
says 'the longest list' "done next 4097 place 0 $counts" 'refused ReportFull next 4097' report "unconfirmed$(numbers 4095 9)" 'done 0 4096 next 4097' report \
    "unconfirmed$(numbers 4096)" 'done 2 4095 next 4096' 'report 12285 1 0 12286 4096 0' "unconfirmed$(numbers 4096)"
# the book: its room, one more, its ends, and a setpoint's words
printf 'book 33000\nbook_byte 32999 7\nbook_byte 0 255\nshow_book\nbook 33001\nbook 4294967295\nbook_byte 33000 0\nbook_byte 4294967295 0\nbook_byte 0 256\nprepare 1 1 1 7\nprepare_book\nread_setpoint 0\nbook 32769\nprepare_book\nbook 32768\nprepare_book\nbook 32785\nshow_book\n' >"$input"
rubbish 1
now $((12670 + 32999)) 7
now 12670 255
shown_book 33000 >"$room/wanted"
# over 32,768 bytes there is no book; what a preparation writes is all of it, and nothing behind it
sed -i '12671,45438s/.*/0/' "$room/ram"
{
    printf 'line %s: not understood\n' 5 6 7 8 9
    printf '%s\n' "done next 1 place 0 $counts" 'refused BadSlot' 'refused BadSlot' 'refused BadSlot' 'done'
    shown_book 32785
} >>"$room/wanted"
prints 'ends of the book'
{
    for kind in Pressure pressures pressur p 1 '' ' speed' speeds VALVE; do echo "write_setpoint 0 0 1 1 $kind 1"; done
    for value in '' ' 4294967296' ' -1' ' 1.5' ' NaN' ' 01' ' 1 1' ' speed' '  1' ' 1 ' $' 1\r'; do
        for kind in pressure speed valve; do echo "write_setpoint 0 0 1 1 $kind$value"; done
    done
    for value in 2 256 4294967295; do echo "write_setpoint 0 0 1 1 valve $value"; done
    printf '%s\n' 'write_setpoint 0 0 speed 1' 'write_setpoint 0 0 1 speed 1' 'write_setpoint 0 0 1 1 1 speed 1' 'write_setpoint speed 0 0 1 1 1' \
        'write_setpoint x 0 1 1 speed 1' 'write_setpoint 0 x 1 1 speed 1' 'write_setpoint 0 0 x 1 speed 1' 'write_setpoint 0 0 1 x speed 1' \
        'write_setpoint  0 0 1 1 speed 1' 'write_setpoint 00 0 1 1 speed 1' 'write_setpoint 4294967296 0 1 1 speed 1' \
        'write_setpoint 0 0 1 4294967296 speed 1' ' write_setpoint 0 0 1 1 speed 1' 'speed 0 0 1 1 write_setpoint 1'
} >"$input"
all_bad 'setpoints that are none'
{
    printf 'prepare 1 2 1 7\nbook 89\nprepare_book\ntry_acquire 1\n'
    for bits in 0 1 1069547520 2139095039 2139095040 2139095041 2147483647 2147483648 4286578687 4286578688 4286578689 4294967295; do
        for kind in pressure speed; do printf 'write_setpoint 1 1 1 7 %s %s\nread_setpoint 1\n' "$kind" "$bits"; done
    done
    printf 'show_book\nram 5\nshow_book\nread_setpoint 0\n'
} >"$input"
# a pressure is finite if its exponent is not the greatest: without its sign it is under 2,139,095,040, infinity's bits
# behind the contents of two slots there is room for five bodies: from version 6 on, every second write slides the three that it keeps
moved_by() { if [ "$1" -gt 5 ] && [ $(($1 % 2)) -eq 0 ]; then echo 15; else echo 0; fi; }
{
    printf '%s\n' "done next 1 place 0 $counts" 'done' 'granted 1 1 7 next 2 place 0 attempts 1 boundaries 0 yields 0 dropped 0'
    version=0
    for bits in 0 1 1069547520 2139095039 2139095040 2139095041 2147483647 2147483648 4286578687 4286578688 4286578689 4294967295; do
        if [ $((bits % 2147483648)) -lt 2139095040 ]; then
            version=$((version + 1))
            last="setpoint pressure $bits version $version"
            echo "done version $version moved $(moved_by "$version")"
        else
            echo 'refused NotFinite'
        fi
        echo "$last"
        version=$((version + 1))
        last="setpoint speed $bits version $version"
        printf '%s\n' "done version $version moved $(moved_by "$version")" "$last"
    done
    # slot 1's four lines: place 79, length 5, version 18; then its four bodies, versions 15 to 18, the last kind 2, 4,294,967,295
    printf '%s\n' 'book 89' 'at 32 79 0 5 0 18 0 0 0 74 0 5 0 17 0 0 0' 'at 48 69 0 5 0 16 0 0 0 64 0 5 0 15 0 0 0' \
        'at 64 2 255 255 127 255 2 0 0 128 255 2 1 0 128 255 2' 'at 80 255 255 255 255 0 0 0 0 0'
    rubbish 5
    shown_book 89
    echo 'refused DamagedBook'
} >"$room/wanted"
prints 'pressures by their bits'
printf 'lend 12601 70\nlend 12600 71\nlend 4294967295 0\nlend 0 4294967295\nlend 1\nlend 1 1 1\n' >"$input"
all_bad 'lending too much'
printf 'lend 12600 70\nprepare 2 4 1 7\nlend 24 2\nprepare 2 4 1 7\nlend 23 2\nprepare 2 4 1 7\nlend 24 1\nprepare 2 4 1 7\ntry_acquire 0\nenvironment\nlend 0 0\nshow\nlend 2 0\nshow\nlend 3 0\nshow\nlend 7 1\nshow\nlend\nshow\n' >"$input"
says 'lending' "refused 1 BadShape 0 next 0 place 0 $counts" "done next 1 place 0 $counts" "refused 1 BadShape 0 next 1 place 0 $counts" \
    "refused 1 BadShape 0 next 1 place 0 $counts" 'granted 0 1 7 next 2 place 0 attempts 1 boundaries 0 yields 0 dropped 0' \
    "refused 1 BadShape 0 next 2 place 0 $counts" 'head 2 4 2 7' 'head 2 4 2 7' 'head 2 4 2 7' 'cell 0 1 1 0' 'head 2 4 2 7' 'cell 0 1 1 0' 'head 2 4 2 7' 'cell 0 1 1 0'
# 3 H B modulo 2^32 is 0, 3 and 6 here; the true product is more than there is
for head in '65536 65536 1' '1431655766 1 1' '4294967295 4294967295 1' '2147483648 2 1' '64 65 1' '70 60 1' '71 60 1' '4200 1 1' '1 4200 1' '1 4201 1' '0 5 1' '5 0 1'; do
    printf 'head %s 7\nshow\nenvironment\nprepare %s 7\nshow\n' "$head" "$head"
done >"$input"
rubbish 1
while read -r head words bytes; do
    head=${head//,/ }
    shown "$head 7" "$words" "$bytes"
    printf '%s\n' "refused 1 BadShape 0 next 1 place 0 $counts" "refused 1 BadShape 0 next 1 place 0 $counts"
    # a refused preparation leaves the head
    shown "$head 7" "$words" "$bytes"
done >"$room/wanted" <<'TABLE'
65536,65536,1 12600 70
1431655766,1,1 12600 70
4294967295,4294967295,1 12600 70
2147483648,2,1 12600 70
64,65,1 12480 64
70,60,1 12600 70
71,60,1 12600 70
4200,1,1 12600 70
1,4200,1 12600 1
1,4201,1 12600 1
0,5,1 0 0
5,0,1 0 5
TABLE
prints 'lending by heads out of range'
printf 'ram 0\nlend 12600 70\nshow\nram 4294967295\nshow\nram 1\nshow\nram 4294967296\n' >"$input"
{
    for seed in 0 4294967295 1; do
        rubbish "$seed"
        shown '0 0 0 0' 12600 70
    done
    echo 'line 8: not understood'
} >"$room/wanted"
prints 'rubbish in RAM'

# ---- Lines at the limit, and input without one

of_length $most x >"$input"
says 'one line at the limit' 'line 1: not understood'
{ of_length $most x; echo; } >"$input"
says 'one line at the limit with its line feed' 'line 1: not understood'
of_length $most '#' >"$input"
says 'a comment at the limit'
{ of_length $most '#'; printf '\nshow'; } >"$input"
says 'a line behind a comment at the limit' 'head 0 0 0 0'
of_length $most '\n' >"$input"
says 'line feeds'
for byte in x '#' ' ' '\0' '\377' '\r' 1; do
    of_length $((most + 1)) "$byte" >"$input"
    says "one byte over the limit, $byte" 'line 1: not understood'
    { printf 'echo 1\n'; of_length $((most + 1)) "$byte"; printf '\nshow\n'; of_length $((3 * most)) "$byte"; } >"$input"
    says "over the limit, not printed, $byte" 'line 2: not understood' '> show' 'head 0 0 0 0' 'line 4: not understood'
    { printf 'echo 1\n'; of_length $most "$byte"; printf '\nshow\n'; } >"$input"
    {
        if [ "$byte" != '#' ]; then
            printf '> '
            of_length $most "$byte"
            printf '\nline 2: not understood\n'
        fi
        printf '> show\nhead 0 0 0 0\n'
    } >"$room/wanted"
    prints "at the limit, printed, $byte"
done
{ printf 'place '; of_length $((most - 6)) 1; } >"$input"
says 'a number as long as fits' 'line 1: not understood'
{ printf 'place '; of_length $((most - 6)) 0; } >"$input"
says 'a zero as long as fits' 'line 1: not understood'
{ printf 'place '; of_length $((most - 5)) 0; printf '\nshow\nplace 3\n'; } >"$input"
says 'a number over the limit' 'line 1: not understood' 'head 0 0 0 0'
for word in script turns held registry keys leases member lend place ram try_lock crew; do
    { printf '%s' "$word"; numbers $(((most - ${#word}) / 2)) 1; } >"$input"
    says "$word as long as fits" 'line 1: not understood'
done
# the first 98,400 numbers of a line over the limit would fill the script
{ printf 'prepare 2 4 1 7\nscript 5 0 0\nscript'; numbers 800000 0; printf '\nenvironment\n'; } >"$input"
says 'a list over the limit' "done next 1 place 0 $counts" 'line 3: not understood' 'done next 1 place 1 attempts 0 boundaries 1 yields 0 dropped 0'
of_length $((most / 2)) x | sed 's/x/x\n/g' >"$input"
all_bad 'lines of one letter'
of_length $((most / 5)) x | sed 's/x/show\n/g' >"$input"
sed 's/show/head 0 0 0 0/' "$input" >"$room/wanted"
prints 'much show'
for bytes in 2097152 2097153 3000000 $((5 * most + 1)); do
    of_length "$bytes" '\n' >"$input"
    says "$bytes line feeds"
done
{ printf 'prepare 2 4 1 7\n'; of_length 3000000 '\n'; printf 'show\nx'; } >"$input"
says '3 MB' "done next 1 place 0 $counts" 'head 2 4 1 7' 'line 3000003: not understood'

[ "$wrong" -eq 0 ] || {
    echo "bad-input: $wrong WRONG, of $inputs inputs on two builds"
    exit 1
}
echo "bad-input: $inputs inputs, $lines lines, as wanted on the proved build and on the plain build"

#!/usr/bin/env bash
# A talk with the console, and what can go wrong around it: answers come before the end of input, in a terminal and through a pipe;
# output that is lost (a full disk, a pipe that nobody reads), input that is lost (a directory); input of 3 MB, a line at the limit
# and one byte over it, a stack of 512 KB; the messages on standard error and the status; bench/play.sh, its status, and when it
# builds anew. Ends with 1 if anything is wrong.
set -euo pipefail
cd "$(dirname "$0")/.."
. tests/lib.sh
build_bench
room=$(mktemp -d)
trap 'rm -rf "$room"' EXIT
input=$room/input
limit=1310720
patience=60

tried=0 wrong=0

complain() {
    echo "talk: $*"
    wrong=$((wrong + 1))
}

# same NAME WANTED GOT: the two files are equal
same() {
    tried=$((tried + 1))
    cmp -s "$2" "$3" && return
    complain "$1: DIFFERENT"
    show_difference "$2" "$3"
}

# is NAME WANTED GOT: the two numbers are equal; they are statuses
is() {
    tried=$((tried + 1))
    [ "$2" -eq "$3" ] || complain "$1: status $3, not $2"
}

# lines LINE..: these lines; none: nothing
lines() {
    if [ $# -gt 0 ]; then printf '%s\n' "$@"; fi
}

# prints NAME: $input prints $room/wanted
prints() {
    tried=$((tried + 1))
    plays "$1" "$input" "$room/wanted" || wrong=$((wrong + 1))
}

# says NAME LINE..: the same, with these lines
says() {
    local name=$1
    shift
    lines "$@" >"$room/wanted"
    prints "$name"
}

# of_length COUNT BYTE: that byte so many times
of_length() {
    head -c "$1" /dev/zero | tr '\0' "$2"
}

counts='attempts 0 boundaries 0 yields 0 dropped 0'

# ---- echo, map, help

printf 'show\necho 1\nshow\n\n# a remark\nsh ow\necho 2\necho 1\n\377\0\t\necho 0\nshow\necho 1\nshow' >"$input"
printf '%s\n' 'head 0 0 0 0' '> show' 'head 0 0 0 0' '> sh ow' 'line 6: not understood' '> echo 2' 'line 7: not understood' '> echo 1' >"$room/wanted"
printf '> \377\0\t\nline 9: not understood\n> echo 0\nhead 0 0 0 0\n> show\nhead 0 0 0 0\n' >>"$room/wanted"
prints echo

# bit, owner, waiters: free; free with waiters; held; held with waiters; damaged by the bit; by the owner; damaged with waiters
printf 'map\nprepare 2 4 1 7\nmap\ntry_acquire 2\ntry_acquire 3\nword 5 1\nword 11 4294967295\nword 12 2\nword 16 1\nword 18 1\nword 19 3\nword 20 7\nbyte 1 200\nmap\n' >"$input"
printf 'head 2 4 4 7\nmap\nhead 2 4 0 7\nmap\nhead 2 4 4 7\nlend 23 2\nmap\nlend 24 1\nmap\nlend 24 2\nmap\nlend\nhead 65 1 1 7\nmap\nprepare 3 1 1 7\nmap\n' >>"$input"
says map 'no arena' "done next 1 place 0 $counts" 'header 0 healthy ....' 'header 1 healthy ....' \
    'granted 2 1 7 next 2 place 0 attempts 1 boundaries 0 yields 0 dropped 0' 'granted 3 2 7 next 3 place 0 attempts 1 boundaries 0 yields 0 dropped 0' \
    'header 0 healthy .w#W' 'header 1 poisoned !!!.' 'header 0 healthy .w#W' 'header 1 poisoned !!W.' 'no arena' 'no arena' 'no arena' \
    'header 0 healthy .w#W' 'header 1 poisoned !!W.' 'no arena' "done next 1 place 0 $counts" 'header 0 healthy .' 'header 1 healthy .' 'header 2 healthy .'
printf 'prepare 64 64 1 7\nmap\nprepare 4 1024 1 7\nmap\n' >"$input"
{
    echo "done next 1 place 0 $counts"
    for header in {0..63}; do echo "header $header healthy $(of_length 64 .)"; done
    echo "done next 1 place 0 $counts"
    for header in {0..3}; do echo "header $header healthy $(of_length 1024 .)"; done
} >"$room/wanted"
prints 'map of the largest arenas'

echo help >"$input"
(bench) <"$input" >"$room/out"
tried=$((tried + 1))
for word in ram lend head word byte registry held keys leases turns script place grants member crewless show echo map trace help prepare \
    try_acquire drop_lease read_permission competing_acquire_is_excluded release_then_handoff foreign_release_between_attempts \
    acquire_preserving_borrows drop_preserving_borrows environment environment_for_borrows try_lock other_mutex_preserves_leases \
    transactional_try_lock_bucket acquire_index_bucket release_all acquire_index_locks crew book book_byte show_book prepare_book \
    write_setpoint read_setpoint read_version counters crew_at_work acquire_sorted_locks report unconfirmed salvage; do
    grep -q "^$word\b" "$room/out" || complain "help does not name $word"
done

# ---- the limit of a line, and long input

for last in '\n' ''; do
    { of_length $limit '#'; printf "$last"; } >"$input"
    says 'a remark at the limit'
    { of_length $((limit + 1)) '#'; printf "$last"; } >"$input"
    says 'a remark over the limit' 'line 1: not understood'
    { printf 'echo 1\n'; of_length $limit x; printf "$last"; } >"$input"
    { printf '> '; of_length $limit x; printf '\nline 2: not understood\n'; } >"$room/wanted"
    prints 'a line at the limit is printed'
    { printf 'echo 1\n'; of_length $((limit + 1)) x; printf "$last"; } >"$input"
    says 'a line over the limit is not' 'line 2: not understood'
done
# what stands behind a line over the limit is played; a line over the limit changes nothing
{ printf 'place 7\nplace '; of_length $limit 1; printf '\nprepare 2 4 1 7\n'; of_length $((3 * limit)) '#'; printf '\nshow\n\nx'; } >"$input"
says 'lines behind lines over the limit' 'line 2: not understood' "done next 1 place 7 $counts" 'line 4: not understood' \
    'head 2 4 1 7' 'line 7: not understood'
# the same in small pieces
{ printf 'echo 1\n'; for _ in {1..20}; do of_length 65536 x; sleep 0.01; done; printf '\nshow\n'; } | (bench) >"$room/out" 2>"$room/said" || is "in pieces" 1 $?
{ printf '> '; of_length $limit x; printf '\nline 2: not understood\n> show\nhead 0 0 0 0\n'; } >"$room/wanted"
same 'a line at the limit, in pieces' "$room/wanted" "$room/out"
{ for _ in {1..20}; do of_length 65536 '#'; sleep 0.01; done; printf '#'; sleep 0.1; printf '\nshow\n'; } | (bench) >"$room/out" 2>"$room/said" || is "in pieces" 1 $?
lines 'line 1: not understood' 'head 0 0 0 0' >"$room/wanted"
same 'a line over the limit, in pieces' "$room/wanted" "$room/out"
# the longest line that is understood: a script that fills its room
{ printf 'script'; awk 'BEGIN { for (i = 0; i < 98400; i++) printf " 4294967295" }'; printf '\nprepare 1 1 1 7\nenvironment\n'; } >"$input"
says 'the longest script' "done next 1 place 0 $counts" "refused 2 BadScript 0 next 1 place 0 $counts"
# 3 MB
{ printf 'prepare 2 4 1 7\n'; awk 'BEGIN { for (i = 0; i < 180000; i++) print "place " i % 10; for (i = 0; i < 180000; i++) print "# remark" }'; printf 'show\nx\n'; } >"$input"
says "$(wc -c <"$input") bytes" "done next 1 place 0 $counts" 'head 2 4 1 7' 'line 360003: not understood'
{ awk 'BEGIN { for (i = 0; i < 60000; i++) print "prepare 2 4 1 7" }'; } >"$input"
awk -v line="done next 1 place 0 $counts" 'BEGIN { for (i = 0; i < 60000; i++) print line }' >"$room/wanted"
prints 'much output'

# ---- what is lost

# lost NAME SAID: what was said on standard error begins with this line
lost() {
    tried=$((tried + 1))
    [ "$(head -n 1 "$room/said")" = "$2" ] || complain "$1: said $(head -n 1 "$room/said" | cat -v), not $2"
}

echo help >"$input"
status=0
(bench) <"$input" >/dev/full 2>"$room/said" || status=$?
lost 'a full disk' 'bench: output lost'
is 'a full disk' 2 "$status"
# input without end: the console stops when a write fails
status=0
yes help 2>/dev/null | timeout $patience bash -c '. tests/lib.sh; bench' >/dev/full 2>"$room/said" || status=$?
lost 'a full disk, input without end' 'bench: output lost'
is 'a full disk, input without end' 2 "$status"
for trap in '' "trap '' PIPE;"; do
    # whether the shell ignores the signal or not
    (eval "$trap"; yes help 2>/dev/null | timeout $patience bash -c '. tests/lib.sh; bench' 2>"$room/said" | head -n 1 >/dev/null) || true
    lost "a pipe that nobody reads${trap:+, the signal ignored}" 'bench: output lost'
done
status=0
(bench) <. >"$room/out" 2>"$room/said" || status=$?
lost 'a directory as input' 'bench: input lost'
is 'a directory as input' 2 "$status"
: >"$room/wanted"
same 'a directory as input' "$room/wanted" "$room/out"
# a directory or nothing by name: no play, and it is said which
for name in . "$room/missing"; do
    status=0
    (bench "$name") >"$room/out" 2>"$room/said" || status=$?
    is "bench $name" 2 "$status"
    same "bench $name" "$room/wanted" "$room/out"
    grep -q '^bench: ' "$room/said" || complain "bench $name: says nothing"
done
# the messages are lost: the play is not
echo x >"$input"
lines 'line 1: not understood' >"$room/wanted"
status=0
(bench) <"$input" >"$room/out" 2>/dev/full || status=$?
same 'standard error lost' "$room/wanted" "$room/out"
is 'standard error lost' 1 "$status"

# ---- the stack: 512 KB, environment and all

{ cat bench/*.txt; printf '\nhelp\nlend 12600 70\nram 3\nshow\nbook 33000\nshow_book\necho 1\n'; of_length 5000 x; printf '\nlend\nprepare 64 64 1 7\nmap\nram 3\nreport 37200\nunconfirmed 4200\nsalvage\n'; } >"$input"
(bench) <"$input" >"$room/wanted" 2>"$room/wanted-said" || is 'a stack of any size' 1 $?
(STACK=512 bench) <"$input" >"$room/out" 2>"$room/said" || is 'a stack of 512 KB' 1 $?
same 'a stack of 512 KB' "$room/wanted" "$room/out"
same 'a stack of 512 KB, standard error' "$room/wanted-said" "$room/said"

# ---- a talk

# hears NAME LINE: that line comes, without an end of input, in what the talk says (a terminal ends lines with a carriage return too,
# shows what is typed, and may be told to move about)
hears() {
    local line
    tried=$((tried + 1))
    while IFS= read -r -t $patience -u 7 line; do
        line=$(printf '%s' "${line%$'\r'}" | sed 's/\x1b\[[0-9;?]*[A-Za-z]//g; s/.*\r//')
        [ "$line" != "$2" ] || return 0
    done
    complain "$1: no answer $2"
}

# a_talk NAME: question and answer, twice, and then the end of input, by the bytes $2
a_talk() {
    printf 'prepare 2 4 1 7\n' >&8
    hears "$1" "done next 1 place 0 $counts"
    printf 'echo 1\nmap\n' >&8
    hears "$1" 'header 1 healthy ....'
    printf 'sho' >&8
    sleep 0.2
    printf 'w\n' >&8
    hears "$1" 'head 2 4 1 7'
    printf '%b' "$2" >&8
}

# with_talk: the talk that was just begun is heard by 7 and spoken to by 8
with_talk() {
    pid=$TALK_PID
    exec 7<&"${TALK[0]}" 8>&"${TALK[1]}"
    exec {TALK[0]}<&- {TALK[1]}>&-
}

coproc TALK { bench 2>/dev/null; }
with_talk
a_talk 'through a pipe' 'show'
exec 8>&-
hears 'through a pipe, the last line without line feed' 'head 2 4 1 7'
wait "$pid" || complain "through a pipe: status $?"

# in_terminal COMMAND: a talk with it in a pseudo terminal
in_terminal() {
    coproc TALK { TERM=dumb script -qec "$1" /dev/null 2>/dev/null; }
    with_talk
}

if command -v script >/dev/null; then
    in_terminal 'bash bench/play.sh'
    a_talk 'in a terminal' 'x\n'
    hears 'in a terminal, a line that is not understood' 'line 5: not understood'
    printf '\004' >&8
    hears 'in a terminal, at the end' 'bench: 1 lines not understood'
    status=0
    wait "$pid" || status=$?
    is 'in a terminal' 1 "$status"
    # what is printed is the language's, whatever the terminal shows besides: a greeting, hints
    in_terminal "bash -c '. tests/lib.sh; bench >$room/out'"
    printf 'prepare 2 4 1 7\ntry_aquire 2\ndrop_lease 2\nread_permission 2 1 7\nmap\n' >&8
    printf '\004' >&8
    hears 'in a terminal, standard output a file' 'bench: 2 lines not understood'
    wait "$pid" || is 'in a terminal, standard output a file' 1 $?
    lines "done next 1 place 0 $counts" 'line 2: not understood' 'line 3: not understood' "refused 12 NotHeld 0 next 1 place 0 $counts" \
        'header 0 healthy ....' 'header 1 healthy ....' >"$room/wanted"
    same 'in a terminal, standard output a file' "$room/wanted" "$room/out"
else
    complain 'script is missing (Debian: bsdutils), so no talk in a terminal was tried'
fi

# ---- bench/play.sh

# ends NAME STATUS SAID WORDS..: play.sh with these words, fed with $input, ends with this status; SAID is in what it says
ends() {
    local name=$1 wanted=$2 said=$3 status=0
    shift 3
    bash bench/play.sh "$@" <"$input" >"$room/out" 2>"$room/said" || status=$?
    tried=$((tried + 1))
    [ "$status" -eq "$wanted" ] || complain "play.sh, $name: status $status, not $wanted"
    cat "$room/out" "$room/said" | grep -q -e "$said" || complain "play.sh, $name: does not say '$said'"
}

printf 'prepare 2 4 1 7\nshow\n' >"$input"
ends 'good lines' 0 'head 2 4 1 7'
ends 'a file' 0 'head 2 4 1 7' "$input"
ends help 0 'usage: bash bench/play.sh' --help
ends 'a missing file' 2 "$room/missing" "$room/missing"
ends 'a directory' 2 'is a directory' "$room"
ends 'an option that is none' 2 'no option' --nothing
printf 'x\nshow\n' >"$input"
ends 'a line that is not understood' 1 'bench: 1 lines not understood'
status=0
bash bench/play.sh "$input" >/dev/full 2>"$room/said" || status=$?
[ "$status" -eq 2 ] || complain "play.sh, a full disk: status $status, not 2"
lost 'play.sh, a full disk' 'bench: output lost'
status=0
bash bench/play.sh "$input" >&- 2>"$room/said" || status=$?
[ "$status" -eq 2 ] || complain "play.sh, a closed output: status $status, not 2"
status=0
{ yes help 2>/dev/null | bash bench/play.sh 2>"$room/said" || echo $? >"$room/status"; } | head -n 1 >/dev/null || true
lost 'play.sh, a pipe that nobody reads' 'bench: output lost'

# when it builds: in a small repository, with an rt that writes a library, and a cargo that writes a console which prints its input
small=$room/small
mkdir -p "$small/bench" "$small/tests" "$small/crates/skid/src" "$small/bin"
cp bench/play.sh "$small/bench"
cp tests/lib.sh tests/prove.sh "$small/tests"
echo 'skid: io libc' >"$small/crates.txt"
echo '// nothing' >"$small/crates/skid/src/lib.rt"
printf '#!/bin/sh\necho x86_64\n' >"$small/bin/uname"
cat >"$small/bin/rt" <<'RT'
#!/bin/sh
echo "rt $* in ${PWD##*/}" >>../../calls
echo 'a remark of the checker'
echo 'crate skid: modules loaded=1 checked=1'
if [ -e ../../broken ]; then
    echo 'logic=not-proved'
    exit 1
fi
mkdir -p out
echo archive >out/libskid.a
echo 'logic=proved functions=1 target=x86_64-unknown-linux-gnu'
RT
cat >"$small/bin/cargo" <<'CARGO'
#!/bin/sh
mkdir -p target/rust/x86_64-unknown-linux-gnu/release
printf '#!/bin/sh\ncat "$@"\n' >target/rust/x86_64-unknown-linux-gnu/release/bench
chmod +x target/rust/x86_64-unknown-linux-gnu/release/bench
CARGO
chmod +x "$small/bin/uname" "$small/bin/rt" "$small/bin/cargo"

# builds NAME STATUS CALLS SAID WORDS..: play.sh in that repository ends so, and rt was called so often by now
builds() {
    local name=$1 wanted=$2 calls=$3 said=$4 status=0
    shift 4
    (cd "$small" && PATH=$small/bin:$PATH bash bench/play.sh "$@" <"$input") >"$room/out" 2>"$room/said" || status=$?
    tried=$((tried + 1))
    [ "$status" -eq "$wanted" ] || complain "play.sh, $name: status $status, not $wanted"
    [ "$(cat "$small/calls" 2>/dev/null | wc -l)" -eq "$calls" ] || complain "play.sh, $name: rt was not called $calls times by now"
    grep -q -e "$said" "$room/said" "$room/out" || complain "play.sh, $name: does not say '$said'"
    ! grep -q 'a remark of the checker' "$room/said" "$room/out" || complain "play.sh, $name: shows the checker's remarks"
}

builds 'a missing file comes before the proof' 2 0 "$room/missing" "$room/missing"
builds 'no library' 0 1 '^proved 1 of 1: skid, [0-9]* s$' "$input"
[ "$(cat "$small/calls")" = 'rt lib --cpu x86-64 in skid' ] || complain "play.sh: rt was called otherwise: $(cat "$small/calls")"
builds 'a library' 0 1 '^show$' "$input"
touch -d '+1 minute' "$small/crates/skid/src/lib.rt"
builds 'a newer source' 0 2 '^proved 1 of 1: skid, [0-9]* s$' "$input"
touch "$small/broken"
builds 'a source that is not proved' 2 3 '^what the checker said is in ' "$input"
log=$(sed -n 's/^what the checker said is in //p' "$room/said")
grep -q 'a remark of the checker' "$log" || complain "play.sh: the log does not have the checker's remarks"
rm -f "$log" "$small/bin/rt" "$small/crates/skid/out/libskid.a"
if ! PATH=/usr/bin:/bin command -v rt >/dev/null; then
    status=0
    (cd "$small" && PATH=$small/bin:/usr/bin:/bin bash bench/play.sh "$input") >"$room/out" 2>"$room/said" || status=$?
    tried=$((tried + 1))
    [ "$status" -eq 2 ] || complain "play.sh without rt: status $status, not 2"
    grep -q 'install the Rattle kit (README.md' "$room/said" || complain 'play.sh without rt does not say what to install'
fi

[ "$wrong" -eq 0 ] || {
    echo "talk: $wrong WRONG, of $tried tries"
    exit 1
}
echo "talk: $tried tries, as expected"

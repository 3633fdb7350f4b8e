#!/usr/bin/env bash
# Plays the case files of bench/ on the proved build, on the plain build and on both at once, and compares what each prints with the
# .out file beside it, byte by byte; what it says on standard error and its status too. Before that it does the same with the
# sessions of README.md and docs/CONSOLE.md: a block fenced as console-in, and behind it one fenced as console-out. Then it looks up,
# for each answer of each call, for each command and for what is not understood, the case file that shows it. Ends with 1 if anything
# is not as expected.
set -euo pipefail
cd "$(dirname "$0")/.."
. tests/lib.sh

build_bench
room=$(mktemp -d)
trap 'rm -rf "$room"' EXIT

wrong=0

complain() {
    echo "$@"
    wrong=$((wrong + 1))
}

# replay NAME INPUT WANTED: the input on each build, and for both as a file by name
replay() {
    plays "$1" "$2" "$3" || wrong=$((wrong + 1))
    plays "$1" "$2" "$3" --plain || wrong=$((wrong + 1))
    plays "$1" /dev/null "$3" --both "$2" || wrong=$((wrong + 1))
}

# sessions_of PAGE: its sessions, as 1.in and 1.out, 2.in and 2.out, ..; prints what is wrong with its fences
sessions_of() {
    awk -v room="$room" -v page="$1" '
        function bad(what) { print page ", line " NR ": " what }
        function block(end) { file = room "/" count end; printf "" > file; inside = 1 }
        inside && /^```$/ { if (file != "") close(file); file = ""; inside = 0; next }
        inside { if (file != "") print > file; next }
        /^```console-in$/ { if (waiting) bad("the console-in before it has no console-out"); waiting = 1; count++; block(".in"); next }
        /^```console-out$/ { if (!waiting) bad("console-out without console-in"); waiting = 0; block(".out"); next }
        /^```/ { inside = 1 }
        END { if (inside) bad("a block has no end"); if (waiting) bad("the last console-in has no console-out") }
    ' "$1"
}

for page in README.md docs/CONSOLE.md; do
    sessions=0 lines=0
    rm -f "$room"/*.in "$room"/*.out
    if [ ! -e "$page" ]; then
        complain "there is no $page"
    elif faults=$(sessions_of "$page") && [ -n "$faults" ]; then
        complain "$faults"
    else
        while [ -e "$room/$((sessions + 1)).in" ]; do
            sessions=$((sessions + 1))
            replay "$page, session $sessions" "$room/$sessions.in" "$room/$sessions.out"
            lines=$((lines + $(wc -l <"$room/$sessions.out")))
        done
        [ "$sessions" -gt 0 ] || complain "$page has no session"
    fi
    [ "$wrong" -gt 0 ] || echo "$page: $sessions sessions, $lines lines, as expected"
done

files=0 lines=0
for input in bench/*.txt; do
    wanted=${input%.txt}.out
    [ -e "$input" ] || continue
    if [ ! -e "$wanted" ]; then
        complain "$input has no $wanted"
        continue
    fi
    [ "$(head -n 1 "$input")" = 'echo 1' ] || complain "$input does not begin with echo 1"
    replay "$input" "$input" "$wanted"
    files=$((files + 1))
    lines=$((lines + $(wc -l <"$wanted")))
done
for wanted in bench/*.out; do
    [ -e "$wanted" ] || continue
    [ -e "${wanted%.out}.txt" ] || complain "$wanted has no ${wanted%.out}.txt"
done
[ "$files" -gt 0 ] || complain "bench/ has no case file"

# ---- Which case file shows what

# Each line of each .out file: the case file, the line that was played, and one that it printed, with tabs between them; without the
# third if it printed nothing.
for wanted in bench/*.out; do
    name=$(basename "$wanted" .out)
    LC_ALL=C tr '\t\0' '??' <"$wanted" | LC_ALL=C awk -v file="$name" '
        function silent() { if (line != "" && !printed) print file "\t" line "\t" }
        /^> / { silent(); line = substr($0, 3); printed = 0; next }
        { print file "\t" line "\t" $0; printed = 1 }
        END { silent() }'
done >"$room/shown"

# The answers of each call, and the case file that shows it: a Busy by its reason, a setpoint by its kind, a refusal by its number, 11
# with its reason, or by its name, where it has no number. (11 with the reason `after` needs a script of 12,352 steps:
# tests/bad-input.sh has it.)
cat >"$room/answers" <<'TABLE'
prepare done=cases 1=refusals
try_acquire granted=refusals held=why-busy 1=refusals 8=refusals 9=refusals 10=refusals
drop_lease done=boot-number 1=refusals 12=refusals 16=refusals
read_permission cell=refusals 1=language 12=refusals 16=boot-number
competing_acquire_is_excluded held=why-busy 1=language 12=refusals 16=boot-number
release_then_handoff granted=boot-number 1=language 10=skid-day 12=refusals 16=boot-number
foreign_release_between_attempts granted=why-busy 1=language 3=language 10=skid-day 12=refusals 13=refusals 16=boot-number
acquire_preserving_borrows granted=skid-day held=why-busy 1=refusals 3=language 8=language 9=language 10=language 16=boot-number
drop_preserving_borrows done=skid-day 1=language 3=refusals 12=language 13=refusals 16=boot-number
environment done=cases 1=refusals 2=refusals 3=refusals 16=refusals
environment_for_borrows done=skid-day 1=language 2=language 3=language 16=boot-number
try_lock granted=refusals held=why-busy before=refusals after=cases 1=language 2=language 3=refusals 7=why-busy 8=refusals 9=second-reading 10=cases 16=boot-number
other_mutex_preserves_leases granted=skid-day held=why-busy before=why-busy after=cases 1=language 2=language 3=language 7=second-reading 8=language 9=language 10=language 16=boot-number
transactional_try_lock_bucket granted=cases held=cases before=why-busy after=why-busy 1=language 2=language 3=language 5=refusals 6=refusals 7=cases 8=cases 9=language 10=cases 16=boot-number
acquire_index_bucket granted=cases 1=refusals 2=acceptance 3=refusals 5=refusals 6=refusals 7=cases 8=cases 9=refusals 10=cases 11held=cases 11before=cases 16=boot-number
release_all done=boot-number 1=language 2=refusals 4=refusals 12=refusals 14=refusals 16=refusals
acquire_index_locks granted=cases 1=language 2=language 3=refusals 4=refusals 5=refusals 6=refusals 7=cases 8=cases 9=language 10=cases 11held=cases 11before=cases 16=boot-number
acquire_sorted_locks granted=boot-number 1=any-order 2=any-order 3=any-order 4=boot-number 5=any-order 6=any-order 7=any-order 8=any-order 9=any-order 10=any-order 11held=any-order 11before=any-order 16=boot-number
crew crew=cases 1=refusals 15=cases
crew_at_work crew=crew-at-work 1=crew-at-work 15=crew-at-work
salvage done=boot-number 1=warm-restart ReportFull=warm-restart
prepare_book done=setpoint-book 1=setpoint-book BadSlot=setpoint-book
write_setpoint done=setpoint-book 1=setpoint-book BadSlot=setpoint-book 16=setpoint-book 12=setpoint-book NotFinite=setpoint-book DamagedBook=setpoint-book VersionsSpent=setpoint-book BookFull=four-versions
read_setpoint pressure=setpoint-book speed=setpoint-book valve=setpoint-book 1=setpoint-book BadSlot=setpoint-book DamagedBook=setpoint-book NeverWritten=setpoint-book
read_version pressure=setpoint-book speed=four-versions valve=setpoint-book 1=four-versions BadSlot=four-versions DamagedBook=four-versions NeverWritten=four-versions
TABLE

# What no table of answers tells: the case file, the line that is played, one that it prints (none: it prints nothing), as extended
# regular expressions, for each command and each sentence of docs/CONSOLE.md. (Lines too long for a case file are in
# tests/bad-input.sh: the rooms of script, held list, keys, leases, turns and counters, and the longest line. What goes to standard
# error, and help, is in tests/talk.sh.)
cat >"$room/rows" <<'TABLE'
lines | registry 0 1 1 |
boot-number | held .* |
any-order | keys .* |
refusals | leases .* |
cases | turns .* |
cases | script .* |
language | place 4294967295 |
language | environment_for_borrows | .* place 4294967295 .*
lines | grants 0 |
lines | acquire_index_locks | grants
cases | grants [1-9].* |
cases | member [0-9 ]+ |
lines | member |
refusals | crewless |
crew-at-work | counters [0-9 ]+ |
crew-at-work | counters |
language | crew_at_work | counters
warm-restart | report [1-9].* |
language | report 37200 |
language | report 37201 | line .*: not understood
warm-restart | unconfirmed [1-9].* |
language | unconfirmed 4200 |
language | unconfirmed 4201 | line .*: not understood
lines | head 0 4294967295 4294967295 4294967295 |
lines | show | head 0 4294967295 4294967295 4294967295
refusals | word 12 2 |
language | word 12599 7 |
language | word 12600 7 | line .*: not understood
refusals | byte 1 200 |
language | byte 69 7 |
language | byte 70 7 | line .*: not understood
lines | byte 0 256 | line .*: not understood
cold-start | ram [0-9]+ |
language | ram 1 |
refusals | lend 23 2 |
refusals | lend |
lines | lend 24 | line .*: not understood
language | lend 12600 70 |
language | lend 12601 70 | line .*: not understood
language | lend 12600 71 | line .*: not understood
setpoint-book | book [1-9].* |
language | book 33000 |
language | book 33001 | line .*: not understood
setpoint-book | book_byte .* |
language | book_byte 32999 7 |
language | book_byte 33000 7 | line .*: not understood
language | book_byte 0 256 | line .*: not understood
cold-start | show | cell [0-9]+ [0-9]+ [0-9]+ [0-9]+
cold-start | show | health [0-9]+ [0-9]+
language | show | head 0 0 0 0
language | show_book | book 0
language | show_book | at 0 1 [0-9 ]+
language | show_book | at 16 2
language | map | no arena
cold-start | map | header 0 healthy [.]+
refusals | map | header 0 [a-z]+ [.#wW]*!.*
skid-day | map | header [0-9]+ healthy [.#]*#[.#]*
warm-restart | map | header 1 poisoned wWW!
lines | echo 1 |
lines | echo 0 | header .*
lines | echo 2 | line .*: not understood
trace | trace 1 |
trace | try_acquire 2 | step 1 2 0
trace | drop_lease 2 2 70 | step 2 2 0
trace | read_permission 2 1 70 | step 0 0 0
trace | show | cell .*
trace | trace 0 |
trace | trace 2 | line .*: not understood
lines | help 0 | line .*: not understood
lines | hello | line .*: not understood
lines | Show | line .*: not understood
lines | try_acquire 02 | line .*: not understood
lines | try_acquire 4294967296 | line .*: not understood
lines | try_acquire | line .*: not understood
lines | try_acquire 2 1 | line .*: not understood
lines |  show | line .*: not understood
lines | show # no comment | line .*: not understood
lines | registry 0 0 [0 ]+ | line .*: not understood
lines | member 0 0 [0 ]+ | line .*: not understood
lines | member 2 5 | line .*: not understood
lines | grants 301 | line .*: not understood
language | counters 65536 | line .*: not understood
language | write_setpoint 0 0 1 70 flow 1 | line .*: not understood
language | write_setpoint 0 0 1 70 valve 2 | line .*: not understood
cases | crew | crew moving [0-9]+ idle [0-9]+ next [0-9]+
cases | crew | member 0 taken [0-9]+ released [0-9]+
cases | crew | refused 15 BadCrew [0-9]+ next [0-9]+
crew-at-work | crew_at_work | counters [0-9 ]+
warm-restart | salvage | done [0-9]+ [0-9]+ next [0-9]+
warm-restart | salvage | report [0-9 ]+
warm-restart | salvage | unconfirmed [0-9 ]+
language | salvage | report
language | salvage | unconfirmed
boot-number | release_all | refused 16 StaleBoot [1-9][0-9]* next .*
any-order | acquire_sorted_locks | refused 11 SerializationFailure 4096 held [0-9]+ at [0-9]+ next .*
any-order | acquire_sorted_locks | refused 8 InvalidBucket [0-9]+ at [1-9][0-9]* next .*
cases | acquire_index_locks | grants [0-9]+ [0-9]+ 70.*
setpoint-book | write_setpoint .* | done version [0-9]+ moved 0
four-versions | write_setpoint .* | done version [0-9]+ moved [1-9][0-9]*
setpoint-book | read_setpoint [0-9]+ | setpoint pressure [0-9]+ version [0-9]+
four-versions | read_version [0-9]+ [0-9]+ | setpoint speed [0-9]+ version [0-9]+
four-versions | read_version [0-9]+ 0 | refused NeverWritten
TABLE

LC_ALL=C awk -F '\t' -v answers="$room/answers" -v rows="$room/rows" '
    FILENAME == answers {
        n = split($0, words, " ")
        for (i = 2; i <= n; i++) { split(words[i], one, "="); wanted[one[2] " shows no " words[1] " that answers " one[1]] = one[2] "\t" words[1] "\t" one[1] }
        next
    }
    FILENAME == rows {
        n = split($0, part, " [|] ?")
        row[++count] = part[1] "\t" part[2] "\t" part[3]
        text[count] = $0
        of_row[part[1]] = of_row[part[1]] " " count
        next
    }
    {
        split($2, played, " ")
        split($3, says, " ")
        answer = says[1]
        if (answer == "refused" && says[2] == 11) answer = "11" says[5]
        else if (answer == "refused" || answer == "busy" || answer == "setpoint") answer = says[2]
        shown[$1 "\t" played[1] "\t" answer]
        n = split(of_row[$1], numbers, " ")
        for (i = 1; i <= n; i++) {
            split(row[numbers[i]], part, "\t")
            if ($2 ~ "^" part[2] "$" && $3 ~ "^" part[3] "$") seen[numbers[i]]
        }
    }
    END {
        for (what in wanted) if (!(wanted[what] in shown)) print what
        for (i = 1; i <= count; i++) if (!(i in seen)) print "not shown: " text[i]
    }' "$room/answers" "$room/rows" "$room/shown" >"$room/missing"
while IFS= read -r line; do complain "the case file $line"; done <"$room/missing"

# every word that help names is played in a case file and understood there; help's own text is for people, and tests/talk.sh has it
echo help >"$room/help"
(bench) <"$room/help" | sed 's/[ :,].*//' | sort -u >"$room/words"
[ "$(wc -l <"$room/words")" -ge 50 ] || complain "help names only $(wc -l <"$room/words") words"
awk -F '\t' '$3 !~ /^line [0-9]+: not understood$/ { split($2, words, " "); print words[1] }' "$room/shown" | sort -u >"$room/played"
while IFS= read -r word; do
    [ "$word" = help ] || grep -q -x -e "$word" "$room/played" || complain "help names $word, and no case file plays it"
done <"$room/words"

if [ "$wrong" -gt 0 ]; then
    echo "bench: $wrong not as expected"
    exit 1
fi
echo "bench: $files files, $lines lines, as expected on the proved build, on the plain build and on both;" \
    "$(grep -o = "$room/answers" | wc -l) answers of calls, $(wc -l <"$room/rows") rows and $(wc -l <"$room/words") words of help are shown"

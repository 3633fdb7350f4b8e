#!/usr/bin/env bash
# How many places each point of docs/DESIGN-PASS.md has in crates/*/src, at the top of this checkout or of another FOLDER:
# bash tools/places.sh [FOLDER]. Comments are not counted. The words are those of the old forms, so what is left of them is counted too.
cd "${1:-"$(dirname "$0")/.."}" || exit 1
code() { grep -rhE --include='*.rt' "$@" crates/*/src | grep -vE '^ *//' || true; }
say() { printf '%-3s %5s  %s\n' "$1" "$(cat)" "$2"; }
names='Check|KeyCheck|Found|Serial|SalvageAnswer|BookCheck|Decoded|Encoded|Dumped|Undumped|Verdict|Reported|Input|Quietly'
code "\b($names)\b" | wc -l | say 1a 'lines with an own enum of the shape of Option or Result'
code 'fine: bool|\.fine\b|bad: usize|sums\.bad|cells == 0 \{|time\.value <=|\bSpot\b|Stage::Lost|is_lost' | wc -l |
    say 1b 'lines with a flag, a number or a case that says that no value is there'
code 'kind == [0-9]|[0-9] < kind' | wc -l | say 1c "lines that test a step's kind by number"
twins='run_free|run_marked|run_steps|run|run_guarded|free_step|other_step|late_step|step|free_release|step_release|few_fault|many_fault'
twins="$twins|marked_fault|marks_of|lease_marks|note_marks|hold_on|marked_hold|first_asking|marked_asking|entry_of|room|lease_room"
twins="$twins|take_turns|work_turns|place|cell_of|make_move|take|work_move|crew_run|work_run|put_time|put_five|put_four|put_step_time"
twins="$twins|put_digits|zero_words|zero_bytes|is_in|is_in_from|boundary|protecting_boundary|attempt_alone|retry_alone|once_by_key"
twins="$twins|retry_by_key|quiet_once_at|quiet_retry_at|put_vars|put_first|weigh|body_size|put_body|changed|changed_byte|clear_word|mend_byte"
code "fn ($twins)\b" | wc -l | say 2 'functions that have or had a twin'
code '^ *while ' | wc -l | say 3 'loops by while'
hand='same|same_hold|lesser|larger|beyond|is_digit|wide|is_finite|bytes|join|zero_words|zero_bytes|put_bytes|line_at|put_zeros|copy'
hand="$hand|copy_back|still_within|number_at|later|held_by|changed|changed_byte|within|version_below|places|filling"
code "fn ($hand)\(" | wc -l | say 4 'functions that write out equality, order, conversion or copying'
code '\bRoomIn\b|\bKeyFits\b|n ≤ 64|n ≤ 94|shape_fits head \(length table|3 \* cell \+ 2 < length table|CrewFine head' | wc -l |
    say 5 'lines of promises with one of seven facts that stand in three or more'
code '\[\[u32; 2\]; 64\]|\[usize; 16\]' | wc -l | say 6 'lines with an array and a count beside it'
code 'adding: bool|taking: bool|kind: u32' | wc -l | say 7 'parameters that choose a step'
find crates/*/proofs -name Answers.antt | wc -l | say 8a 'files of answers'
find crates/*/proofs -name Answers.antt -exec cat {} + | wc -l | say 8b 'lines of them'

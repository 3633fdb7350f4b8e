//! `trace`: what each call did to the bits of the cells, as steps.

const COUNTS: &str = "attempts 0 boundaries 0 yields 0 dropped 0";

fn printed(input: &str) -> String {
    let mut out = Vec::new();
    let end = console::play::play(&mut plain::Plain, &mut input.as_bytes(), &mut out);
    assert_eq!(end.lost, None);
    String::from_utf8(out).expect("the console prints text")
}

/// The steps that the last line's call prints, behind lines that print what they like.
fn steps(before: &str, call: &str) -> Vec<String> {
    let with = printed(&format!("{before}\ntrace 1\n{call}"));
    let without = printed(&format!("{before}\n{call}"));
    let trace = with.strip_prefix(&without).expect("behind its other lines");
    trace.lines().map(String::from).collect()
}

#[test]
fn a_day() {
    assert_eq!(
        printed("prepare 2 4 1 70\ntrace 1\ntry_acquire 2\ntry_acquire 2\nshow\ndrop_lease 2 1 70\ntrace 0\ntry_acquire 2"),
        format!(
            "done next 1 place 0 {COUNTS}\n\
             granted 2 1 70 next 2 place 0 attempts 1 boundaries 0 yields 0 dropped 0\nstep 1 2 0\n\
             busy held 1 next 2 place 0 attempts 1 boundaries 0 yields 0 dropped 0\nstep 0 0 0\n\
             head 2 4 2 70\ncell 2 1 1 0\n\
             done next 2 place 0 {COUNTS}\nstep 2 2 0\n\
             granted 2 2 70 next 3 place 0 attempts 1 boundaries 0 yields 0 dropped 0\n"
        )
    );
}

#[test]
fn behind_the_other_lines_in_rising_order() {
    let arena = "prepare 2 4 1 70\nregistry 0 1\nkeys 1 3 0 2 1 0\ngrants 9";
    let locks = "acquire_index_locks";
    assert_eq!(
        steps(arena, locks),
        ["step 1 2 0", "step 1 4 0", "step 1 7 0"]
    );
    let released = format!("{arena}\n{locks}\nleases 4 3 70 7 1 70 2 2 70");
    assert_eq!(
        steps(&released, "release_all"),
        ["step 2 2 0", "step 2 4 0", "step 2 7 0"]
    );
    let crew = "prepare 2 4 1 70\nmember 1 5\nmember 1 6\nturns 0 0 1 0 1";
    assert_eq!(steps(crew, "crew"), ["step 1 1 0"]);
}

/// A cell that is released and taken again keeps its bit; one that is taken and released within a call has none.
#[test]
fn only_the_bits_before_and_after() {
    let held = "prepare 2 4 1 70\ntry_acquire 3";
    assert_eq!(steps(held, "release_then_handoff 3 1 70"), ["step 0 0 0"]);
    let late = "prepare 2 4 1 70\nscript 5 0 0 5 0 0 3 2 1 1 6 0 5 0 0";
    assert_eq!(steps(late, "try_lock 2"), ["step 1 6 0"]);
}

/// A bit word that is now another number than 1 counts as released.
#[test]
fn a_preparation_of_its_own_numbers() {
    let rubbish = "head 4 4 1 70\nprepare 1 3 1 70\nword 0 1\nword 3 7\nword 6 0\nword 9 1";
    assert_eq!(
        steps(rubbish, "prepare 1 3 9 70"),
        ["step 2 0 0", "step 2 1 0"]
    );
    assert_eq!(
        steps(rubbish, "prepare 1 4 9 70"),
        ["step 2 0 0", "step 2 1 0", "step 2 3 0"]
    );
    // a refused one changes nothing
    assert_eq!(steps(rubbish, "prepare 1 4 0 70"), ["step 0 0 0"]);
    assert_eq!(steps("lend 11 1", "prepare 1 4 1 70"), ["step 0 0 0"]);
}

#[test]
fn commands_are_no_calls() {
    let lines = "trace 1\nprepare 1 1 1 70\nword 0 1\nram 5\nhead 1 1 1 70\nmap\nfoo\ntrace 1\ntrace 0\nenvironment";
    let out = printed(lines);
    assert_eq!(out.matches("step ").count(), 1, "{out}");
    for line in ["trace", "trace 2", "trace 01", "trace 1 1", "trace on"] {
        assert_eq!(printed(line), "line 1: not understood\n");
    }
}

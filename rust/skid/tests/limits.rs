//! The crate has every limit and every length of include/skid.h, with its number.
use skid::{raw, wave};
use std::collections::BTreeMap;

/// The header's `#define`s of numbers, by name.
fn of_the_header() -> BTreeMap<String, u64> {
    let path = concat!(env!("CARGO_MANIFEST_DIR"), "/../../include/skid.h");
    let header = std::fs::read_to_string(path).expect(path);
    let lines = header.lines().map(|line| line.split_whitespace());
    lines
        .filter_map(
            |mut words| match (words.next(), words.next(), words.next()) {
                (Some("#define"), Some(name), Some(number)) => {
                    let number = number.trim_end_matches('u').parse().ok()?;
                    Some((name.strip_prefix("SKID_")?.to_string(), number))
                }
                _ => None,
            },
        )
        .collect()
}

#[test]
fn limits_are_the_headers() {
    let mut limits = of_the_header();
    let ours = [
        ("MAX_HEADERS", skid::MAX_HEADERS),
        ("MAX_BUCKETS", skid::MAX_BUCKETS),
        ("MAX_CELLS", skid::MAX_CELLS),
        ("MAX_BINDINGS", skid::MAX_BINDINGS),
        ("MAX_STEPS", skid::MAX_STEPS),
        ("MAX_LEASES", skid::MAX_LEASES),
        ("MAX_ATTEMPTS", skid::ATTEMPTS),
        ("MAX_MEMBERS", skid::MAX_MEMBERS),
        ("MAX_MEMBER_CELLS", skid::MAX_MEMBER_CELLS),
        ("MAX_CREW_CELLS", skid::MAX_CREW_CELLS),
        ("MAX_TURNS", skid::MAX_TURNS),
        ("MAX_BOOK", skid::LONGEST_BOOK),
        ("MAX_SLOTS", skid::SLOTS as usize),
        ("MAX_WAVE_CELLS", wave::CELLS as usize),
        ("MAX_DUMP", wave::LONGEST),
        ("MAX_REPORT", 3 * skid::MAX_CHANGES),
        ("REPLY_WORDS", raw::REPLY),
        ("CREW_WORDS", raw::CREW),
        ("SALVAGE_WORDS", raw::SALVAGE),
        ("BOOK_WORDS", raw::BOOK),
        ("WAVE_WORDS", raw::WAVE),
        ("CELL_WORDS", skid::CELL_WORDS),
        ("LEASE_WORDS", skid::LEASE_WORDS),
        ("KEY_WORDS", skid::KEY_WORDS),
        ("NO_SERIAL", skid::NO_SERIAL as usize),
        ("KEPT_VERSIONS", skid::KEPT_VERSIONS as usize),
        ("SLOT_BYTES", skid::SLOT_BYTES),
        ("ROOMY_BYTES", skid::ROOMY_BYTES),
    ];
    for (name, number) in ours {
        assert_eq!(limits.remove(name), Some(number as u64), "{name}");
    }
    let left: Vec<_> = limits.into_keys().collect();
    assert_eq!(left, ["INTERFACE"], "the header has more numbers");
}

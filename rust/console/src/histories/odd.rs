//! Lines that are no good, and lines that are long.

use super::bad_lines::BAD_LINES;
use super::salvage::Found;
use super::{Writer, CALLS};
use crate::build::Build;
use crate::desk;

/// Steps of a script, and turns of a crew: the most that a call takes.
const MOST_STEPS: usize = 32_768;
const MOST_TURNS: usize = 65_536;

impl<B: Build, J: Build + Clone, K: FnMut(&mut B, &[u8], &[u8]) -> bool> Writer<B, J, K> {
    pub(super) fn comment(&mut self) {
        let mut line = Vec::new();
        if self.dice.once_in(2) {
            line.push(b'#');
            line.extend(self.bytes());
        }
        self.line(&line);
    }

    /// Any bytes but a line feed.
    pub(super) fn bytes(&mut self) -> Vec<u8> {
        let count = self.dice.below(24);
        let byte = |byte: u64| match byte as u8 {
            b'\n' => 0,
            byte => byte,
        };
        (0..count).map(|_| byte(self.dice.roll())).collect()
    }

    pub(super) fn bad_line(&mut self) {
        match self.dice.below(12) {
            0 => {
                let line = self.bytes();
                self.line(&line);
            }
            // a call with any count of numbers
            1..=2 => {
                let (name, _) = self.dice.pick(&CALLS);
                let count = self.dice.below(5);
                let numbers: Vec<u32> = (0..count).map(|_| self.dice.number(4)).collect();
                self.write(name, &numbers);
            }
            3..=5 => self.bad_copy(),
            6 if self.dice.once_in(4) => {
                let (word, room) = self.dice.pick(&[
                    ("registry", desk::REGISTRY),
                    ("held", desk::HELD),
                    ("keys", desk::KEYS),
                    ("leases", desk::LEASES),
                    ("member", desk::MEMBER_CELLS),
                    ("counters", desk::COUNTERS),
                ]);
                let more = self.dice.below(2);
                self.write(word, &vec![1; room + more]);
            }
            _ => {
                let line = self.dice.pick(&BAD_LINES);
                self.line(line.as_bytes());
            }
        }
    }

    /// The last line with one byte more, less, or another.
    pub(super) fn bad_copy(&mut self) {
        let mut line = self.last.clone();
        if line.len() > 200 {
            return;
        }
        let at = self.dice.below(line.len() + 1);
        let byte = self.dice.pick(b"  \t\r0159-+#x\0\xff");
        match self.dice.below(3) {
            0 if at < line.len() => {
                line.remove(at);
            }
            1 if at < line.len() => line[at] = byte,
            _ => line.insert(at, byte),
        }
        self.line(&line);
    }

    /// Calls whose last attempt of all takes its cell, and is Busy since others wait again then: others wait through the
    /// 4,095 attempts before it, each with its boundary and the spin's, and 63 of them with the yield's. Bucket 0 is got at
    /// once, and has three boundaries.
    pub(super) fn fail_late(&mut self) {
        self.arena();
        let [headers, buckets] = [self.dice.number(4) + 1, self.dice.number(4) + 2];
        let first = self.dice.pick(&[1, 1, 7, u32::MAX - 9]);
        self.prepare(headers, buckets, first);
        self.write("registry", &[headers - 1]);
        self.write("held", &[]);
        let zero = (headers - 1) * buckets;
        let cell = zero + 1;
        self.write("word", &[3 * cell + 2, 1]);
        // not waited for from that attempt's first boundary on, or from the spin before it
        let early = self.dice.below(2);
        let mut script = [5, 0, 0].repeat(3 + 2 * 4095 + 63 - early);
        script.extend([3, cell, 0, 5, 0, 0]);
        script.extend([5, 0, 0].repeat(1 + early));
        script.extend([3, cell, 1, 2, cell, self.next(), 5, 0, 0]);
        self.write("script", &script);
        self.write("place", &[3]);
        self.write("acquire_index_bucket", &[0, 1]);
        self.write("keys", &[0, 1]);
        self.write("grants", &[3]);
        self.write("place", &[3]);
        self.write("acquire_index_locks", &[]);
        self.write("keys", &[0, 0, 0, 1]);
        self.write("grants", &[6]);
        self.write("place", &[0]);
        self.write("acquire_index_locks", &[]);
        self.write("keys", &[0, 1, 0, 0, 0, 1]);
        self.write("grants", &[9]);
        self.write("place", &[0]);
        self.write("acquire_sorted_locks", &[]);
        self.write("show", &[]);
        self.script();
    }

    /// A line near the greatest lengths, and calls that meet it.
    pub(super) fn long(&mut self) {
        let steps = MOST_STEPS;
        match self.dice.below(8) {
            0..=1 => {
                let mut script: Vec<u32> = (0..steps)
                    .flat_map(|_| [self.dice.pick(&[0, 5, 5, 5, 5, 3, 6]), 0, 0])
                    .collect();
                // held until some thousand boundaries have passed
                if let Some(&[cell, serial, _]) = self.live().first() {
                    let at = 3 * (1000 + self.dice.below(8000));
                    script.splice(at..at + 3, [2, cell, serial]);
                }
                self.write("script", &script);
                self.write("held", &[]);
                self.acquire(0, 0);
                self.call_by_cell("try_lock");
                self.write("place", &[steps as u32 - 1]);
                self.write("environment", &[]);
                self.write("environment", &[]);
                self.write("place", &[steps as u32 + 1]);
                self.write("environment", &[]);
                self.script();
            }
            2 => {
                self.write("script", &vec![0; 3 * (steps + 1)]);
                self.write("environment", &[]);
                self.write("release_all", &[]);
                self.script();
            }
            3 => {
                let more = self.dice.below(2);
                self.write("script", &vec![5; desk::SCRIPT + more]);
                self.write("environment", &[]);
                self.script();
            }
            4..=5 => {
                self.members();
                let members = self.desk.members.len().clamp(1, 9) as u32;
                let more = self.dice.below(2);
                let turns: Vec<u32> = (0..MOST_TURNS + more)
                    .map(|_| self.dice.number(members))
                    .collect();
                self.write("turns", &turns);
                self.write("crew", &[]);
                self.counters();
                self.write("crew_at_work", &[]);
                self.show();
                self.turns();
            }
            // the largest arena, all of it rubbish: a word less than enough, and enough
            6 => {
                let seed = self.dice.odd_number();
                self.write("ram", &[seed]);
                self.write("head", &[64, 64, 1 + seed / 2, seed]);
                let Found { changed, held } = self.found();
                self.write("unconfirmed", &[held as u32]);
                self.write("report", &[3 * changed as u32 - 1]);
                self.write("salvage", &[]);
                self.write("report", &[3 * changed as u32]);
                self.write("salvage", &[]);
                self.write("report", &[0]);
                self.write("salvage", &[]);
            }
            _ => {
                let more = self.dice.below(2);
                self.write("turns", &vec![0; desk::TURNS + more]);
                self.write("crew", &[]);
                self.write("crew_at_work", &[]);
                self.turns();
            }
        }
    }
}

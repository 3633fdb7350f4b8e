//! The console's own RAM, which it lends to the calls, and the commands that set it up.

use crate::build::Head;

/// The rooms of the player's own RAM.
pub const TABLE: usize = 12_600;
pub const HEALTH: usize = 70;
pub const BOOK: usize = 33_000;
pub const REGISTRY: usize = 80;
pub const SCRIPT: usize = 98_400;
pub const HELD: usize = 300;
pub const KEYS: usize = 200;
pub const LEASES: usize = 300;
pub const GRANTS: usize = 300;
pub const MEMBERS: usize = 20;
pub const MEMBER_CELLS: usize = 70;
pub const TURNS: usize = 70_000;
pub const COUNTERS: usize = 4_200;
pub const REPORT: usize = 37_200;
pub const UNCONFIRMED: usize = 4_200;

/// What a word of a fresh grant buffer holds, of a fresh report, and of a fresh list of cells left held.
const FRESH: u32 = 9;

/// The player's own RAM.
#[derive(Clone)]
pub struct Desk {
    pub table: Vec<u32>,
    pub health: Vec<u8>,
    pub book: Vec<u8>,
    /// How many bytes of the book are lent.
    pub lent_book: usize,
    pub head: Head,
    pub registry: Vec<u32>,
    pub script: Vec<u32>,
    pub place: usize,
    pub held: Vec<u32>,
    pub keys: Vec<u32>,
    pub leases: Vec<u32>,
    pub grants: Vec<u32>,
    /// The number of cells of each member, and their cells one behind the other.
    pub members: Vec<u32>,
    pub cells: Vec<u32>,
    pub turns: Vec<u32>,
    pub counters: Vec<u16>,
    /// A salvage's report, and its list of cells left held.
    pub report: Vec<u32>,
    pub unconfirmed: Vec<u32>,
    /// Table words and health bytes to lend; none: as many as the head says.
    pub lent: Option<(usize, usize)>,
    /// Whether lines are printed before they are played. The player does it, not the desk.
    pub echo: bool,
    /// Whether each call prints what it did to the bits of the cells.
    pub trace: bool,
}

impl Default for Desk {
    fn default() -> Self {
        Desk::new()
    }
}

impl Desk {
    pub fn new() -> Self {
        let mut desk = Desk {
            table: vec![0; TABLE],
            health: vec![0; HEALTH],
            book: vec![0; BOOK],
            lent_book: 0,
            head: Head::default(),
            registry: Vec::new(),
            script: Vec::new(),
            place: 0,
            held: Vec::new(),
            keys: Vec::new(),
            leases: Vec::new(),
            grants: Vec::new(),
            members: Vec::new(),
            cells: Vec::new(),
            turns: Vec::new(),
            counters: Vec::new(),
            report: Vec::new(),
            unconfirmed: Vec::new(),
            lent: None,
            echo: false,
            trace: false,
        };
        desk.ram(1);
        desk
    }

    /// A command that prints nothing. False: it is none, and nothing has changed.
    pub fn command(&mut self, command: &[u8], numbers: &[u32]) -> bool {
        match (command, numbers) {
            (b"ram", &[seed]) => self.ram(seed),
            (b"lend", &[]) => self.lent = None,
            (b"lend", &[words, bytes]) if words as usize <= TABLE && bytes as usize <= HEALTH => {
                self.lent = Some((words as usize, bytes as usize));
            }
            (b"head", &[headers, buckets, next, boot]) => {
                self.head = Head {
                    headers,
                    buckets,
                    next,
                    boot,
                };
            }
            (b"word", &[index, value]) if (index as usize) < TABLE => {
                self.table[index as usize] = value;
            }
            (b"byte", &[index, value]) if (index as usize) < HEALTH && value <= 255 => {
                self.health[index as usize] = value as u8;
            }
            (b"book", &[bytes]) if bytes as usize <= BOOK => self.lent_book = bytes as usize,
            (b"book_byte", &[index, value]) if (index as usize) < BOOK && value <= 255 => {
                self.book[index as usize] = value as u8;
            }
            (b"registry", list) if list.len() <= REGISTRY => replace(&mut self.registry, list),
            (b"held", list) if list.len() <= HELD => replace(&mut self.held, list),
            (b"keys", list) if list.len() <= KEYS => replace(&mut self.keys, list),
            (b"leases", list) if list.len() <= LEASES => replace(&mut self.leases, list),
            (b"turns", list) if list.len() <= TURNS => replace(&mut self.turns, list),
            (b"counters", list) if list.len() <= COUNTERS => {
                // a number over 65,535 is not understood
                let counters = list.iter().map(|&number| u16::try_from(number).ok());
                match counters.collect() {
                    Some(counters) => self.counters = counters,
                    None => return false,
                }
            }
            (b"script", list) if list.len() <= SCRIPT => {
                replace(&mut self.script, list);
                self.place = 0;
            }
            (b"place", &[place]) => self.place = place as usize,
            (b"grants", &[words]) if words as usize <= GRANTS => {
                self.grants = vec![FRESH; words as usize];
            }
            (b"report", &[words]) if words as usize <= REPORT => {
                self.report = vec![FRESH; words as usize];
            }
            (b"unconfirmed", &[words]) if words as usize <= UNCONFIRMED => {
                self.unconfirmed = vec![FRESH; words as usize];
            }
            (b"member", list) if list.len() <= MEMBER_CELLS && self.members.len() < MEMBERS => {
                self.members.push(list.len() as u32);
                self.cells.extend_from_slice(list);
            }
            (b"crewless", &[]) => {
                self.members.clear();
                self.cells.clear();
            }
            (b"echo", &[echo]) if echo <= 1 => self.echo = echo == 1,
            (b"trace", &[trace]) if trace <= 1 => self.trace = trace == 1,
            _ => return false,
        }
        true
    }

    /// Fills table, health and book with rubbish.
    fn ram(&mut self, seed: u32) {
        let mut x = seed;
        let mut rubbish = || {
            x = x.wrapping_mul(1_664_525).wrapping_add(1_013_904_223);
            x
        };
        self.table.fill_with(&mut rubbish);
        let mut rubbish_byte = || (rubbish() >> 16) as u8;
        self.health.fill_with(&mut rubbish_byte);
        self.book.fill_with(&mut rubbish_byte);
    }

    /// How many table words and health bytes a call under this head gets.
    pub fn lent(&self, head: Head) -> (usize, usize) {
        let words = 3 * u128::from(head.headers) * u128::from(head.buckets);
        self.lent.unwrap_or((
            words.min(TABLE as u128) as usize,
            (head.headers as usize).min(HEALTH),
        ))
    }
}

fn replace(list: &mut Vec<u32>, numbers: &[u32]) {
    list.clear();
    list.extend_from_slice(numbers);
}

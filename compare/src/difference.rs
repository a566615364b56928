//! What a run found, and how it counts what it saw.
use crate::port::Answer;
use std::collections::BTreeMap;
use std::fmt;

/// Where the two sides part: the whole input, as lines of the program `replay`, and what each said.
pub struct Difference {
    pub lines: Vec<String>,
    pub rust: String,
    pub port: String,
}

impl fmt::Display for Difference {
    fn fmt(&self, f: &mut fmt::Formatter) -> fmt::Result {
        writeln!(f, "DIFFERENT, on this input:")?;
        self.lines.iter().try_for_each(|line| writeln!(f, "    {line}"))?;
        writeln!(f, "Rust: {}", self.rust)?;
        write!(f, "port: {}", self.port)
    }
}

pub type Outcome = Result<(), Difference>;

/// How many comparisons of each sort were made, and which of the port's answers is to be falsified, if any: a run that is
/// to show that it would find a difference.
#[derive(Default)]
pub struct Tally {
    counts: BTreeMap<&'static str, u64>,
    plant: Option<String>,
}

/// The sorts of answers of the port that are compared, each of which a run may falsify once.
pub const SORTS: [&str; 25] = [
    "align",
    "reserve",
    "reserve_bytes",
    "write",
    "push",
    "push_bytes",
    "build",
    "the place of a call",
    "the used length after a call",
    "finish: the length",
    "finish: the alignment",
    "the whole archive",
    "calls whose last byte has no room",
    "is_valid",
    "is_valid_deep",
    "get",
    "get: the place",
    "get: the count",
    "copy_out",
    "is_text: all of up to 3 bytes",
    "is_text: of 4 bytes",
    "is_text: something among letters",
    "is_text: random",
    "is_text: all of 4 bytes from F0 on",
    "roots that do not sit, which Rust is not asked of",
];

/// The falsified answer is not the first of its sort.
const PLANTED_AT: u64 = 100;

impl Tally {
    pub fn new(plant: Option<String>) -> Tally {
        Tally { counts: BTreeMap::new(), plant }
    }

    /// Counts one comparison, and tells whether the port's answer in it is to be falsified.
    fn planted(&mut self, sort: &'static str) -> bool {
        let count = self.counts.entry(sort).or_default();
        *count += 1;
        *count == PLANTED_AT && self.plant.as_deref() == Some(sort)
    }

    pub fn count(&mut self, sort: &'static str) {
        self.planted(sort);
    }

    /// An answer of the port that is compared for being accepted or not.
    pub fn verdict(&mut self, sort: &'static str, mut answer: Answer) -> Answer {
        if self.planted(sort) {
            answer.refusal = if answer.accepted() { 21 } else { 0 };
        }
        answer
    }

    /// A number of the port's.
    pub fn number(&mut self, sort: &'static str, number: u64) -> u64 {
        number + u64::from(self.planted(sort))
    }

    pub fn truth(&mut self, sort: &'static str, truth: bool) -> bool {
        truth ^ self.planted(sort)
    }

    /// Bytes that the port wrote.
    pub fn bytes(&mut self, sort: &'static str, bytes: &mut [u8]) {
        let planted = self.planted(sort);
        match bytes.len() {
            // An empty archive has no byte to falsify: the next one is.
            0 if planted => *self.counts.get_mut(sort).unwrap() -= 1,
            length if planted => bytes[length / 2] ^= 1,
            _ => (),
        }
    }

    pub fn counts(&self) -> impl Iterator<Item = (&'static str, u64)> + '_ {
        self.counts.iter().map(|(sort, count)| (*sort, *count))
    }

    pub fn plant(&self) -> Option<&str> {
        self.plant.as_deref()
    }
}

/// Bytes as `replay` has them.
pub fn hex(bytes: &[u8]) -> String {
    if bytes.is_empty() {
        return "-".into();
    }
    bytes.iter().map(|byte| format!("{byte:02X}")).collect()
}

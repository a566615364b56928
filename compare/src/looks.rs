//! Archives that are looked at by both: the two checks, one step, and copying out.
use crate::dice::Dice;
use crate::difference::{hex, Difference, Outcome, Tally};
use crate::kinds::Kind;
use crate::memory::Page;
use crate::port;
use crate::shapes::Led;

/// What looking needs again and again.
pub struct Looker {
    page: Page,
    sheet: Vec<u8>,
    output: Vec<u8>,
}

/// What an output holds before.
const BEFORE: u8 = 0xEE;

impl Looker {
    pub fn new() -> Looker {
        Looker { page: Page::new(1 << 20), sheet: Vec::new(), output: Vec::new() }
    }

    /// Looks at an archive, and at what can be made of it: cut, longer, damaged, and with each word at its edges.
    pub fn look_around(&mut self, tally: &mut Tally, dice: &mut Dice, kind: &dyn Kind, archive: &[u8], place: usize) -> Outcome {
        self.look(tally, kind, archive, place)?;
        self.look_at_every_place(tally, kind, archive)?;
        for length in 0..archive.len() {
            self.look(tally, kind, &archive[..length], place)?;
        }
        let mut other = archive.to_vec();
        other.extend(dice.bytes(9));
        self.look(tally, kind, &other, place)?;
        for at in (0..archive.len().saturating_sub(3)).step_by(4) {
            let size = kind.size();
            for edge in edges(at, archive.len(), size) {
                other.clear();
                other.extend(archive);
                other[at..at + 4].copy_from_slice(&kind.laid(edge));
                self.look(tally, kind, &other, place)?;
            }
        }
        for at in 0..archive.len() {
            other.clear();
            other.extend(archive);
            other[at] ^= 1 << dice.below(8);
            self.look(tally, kind, &other, place)?;
            other[at] = dice.byte();
            self.look(tally, kind, &other, place)?;
            let second = dice.below(archive.len());
            other[second] = dice.one_of(&[0, 1, 2, 4, 8, 0x7F, 0x80, 0xFF, other[second] ^ 1, other[second].wrapping_add(1)]);
            self.look(tally, kind, &other, place)?;
        }
        Ok(())
    }

    fn look_at_every_place(&mut self, tally: &mut Tally, kind: &dyn Kind, archive: &[u8]) -> Outcome {
        (0..archive.len() + 2).try_for_each(|place| self.look(tally, kind, archive, place))
    }

    /// Compares what both say of the value at a place.
    pub fn look(&mut self, tally: &mut Tally, kind: &dyn Kind, archive: &[u8], place: usize) -> Outcome {
        let archive: &[u8] = self.page.load(archive);
        let (name, order) = (kind.name(), kind.order());
        if !kind.sits(archive, place) {
            return refused_root(tally, kind, archive, place);
        }
        if kind.strange_to_look(archive, place) {
            tally.count("left out: truths and characters that are none");
            return Ok(());
        }
        let shallow = tally.verdict("is_valid", port::is_valid(name, order, archive, place));
        let in_rust = kind.shallow(archive, place);
        if shallow.accepted() != in_rust {
            return Err(unlike("shallow", kind, archive, place, verdict(in_rust), shallow.said()));
        }
        step(tally, kind, archive, place)?;
        let deep = port::is_valid_deep(name, order, archive, place);
        if kind.strange_to_read(archive, place) {
            tally.count("left out: truths and characters that are none");
            return Ok(());
        }
        let deep = tally.verdict("is_valid_deep", deep);
        let in_rust = kind.deep(archive, place);
        tally.count(if in_rust { "is_valid_deep: accepted by Rust" } else { "is_valid_deep: refused by Rust" });
        if deep.accepted() != in_rust {
            return Err(unlike("deep", kind, archive, place, verdict(in_rust), deep.said()));
        }
        self.sheet.clear();
        if in_rust {
            kind.read(archive, place, &mut self.sheet);
        }
        let room = self.sheet.len();
        self.output.clear();
        self.output.resize(room + 3, BEFORE);
        let copied = port::copy_out(name, order, archive, place, &mut self.output[..room]);
        tally.bytes("copy_out", &mut self.output[..room]);
        let written = &self.output[..room] == &self.sheet[..] && self.output[room..] == [BEFORE; 3];
        if copied.accepted() != in_rust || copied.value != room as u64 || !written {
            let port = format!("{}, output {}", copied.said(), hex(&self.output));
            return Err(unlike(&format!("copy of {room} bytes"), kind, archive, place, hex(&self.sheet), port));
        }
        Ok(())
    }
}

impl Default for Looker {
    fn default() -> Looker {
        Looker::new()
    }
}

/// Compares one step, where the kind has one.
fn step(tally: &mut Tally, kind: &dyn Kind, archive: &[u8], place: usize) -> Outcome {
    let led = kind.step(archive, place);
    if matches!(led, Led::Nowhere) {
        return Ok(());
    }
    let got = tally.verdict("get", port::get(kind.name(), kind.order(), archive, place));
    let same = match led {
        Led::To(step) => {
            // What is empty has no place in the original; in the port it is behind the length or the count.
            let place = step.place.unwrap_or(place + 4) as u64;
            got.accepted()
                && tally.number("get: the place", got.value) == place
                && tally.number("get: the count", got.count) == step.count as u64
        }
        _ => !got.accepted(),
    };
    let told = match led {
        Led::To(step) => format!("{step:?}"),
        _ => verdict(false),
    };
    if same {
        Ok(())
    } else {
        Err(unlike("get", kind, archive, place, told, got.said()))
    }
}

/// Of a root that does not sit the original can't be asked; the port says which it is by the format.
fn refused_root(tally: &mut Tally, kind: &dyn Kind, archive: &[u8], place: usize) -> Outcome {
    let outside = place.checked_add(kind.size()).is_none_or(|end| end > archive.len());
    let due = (if outside { 21 } else { 22 }, place as u64, 0);
    let answer = port::is_valid_deep(kind.name(), kind.order(), archive, place);
    let answer = tally.verdict("roots that do not sit, which Rust is not asked of", answer);
    if (answer.refusal, answer.place, answer.depth) == due {
        return Ok(());
    }
    Err(unlike("deep", kind, archive, place, format!("not asked; by the format {due:?}"), answer.said()))
}

/// Numbers at which a count or a distance that stands at a place begins or ceases to be right, and those around them.
fn edges(at: usize, length: usize, size: usize) -> impl Iterator<Item = u32> {
    let (at, length, size) = (at as i64, length as i64, size as i64);
    let corners = [0, -at, length - at, length - at - size, (length - at) / size, length / size, length, size, 1 << 31, 1 << 32];
    corners.into_iter().flat_map(|corner| (-2..=2).map(move |by| (corner + by) as u32))
}

fn verdict(accepted: bool) -> String {
    if accepted { "accepted" } else { "refused" }.into()
}

fn unlike(call: &str, kind: &dyn Kind, archive: &[u8], place: usize, rust: String, port: String) -> Difference {
    let line = format!("{call} {} {} {place} {}", kind.name(), kind.order() as char, hex(archive));
    Difference { lines: vec![line], rust, port }
}

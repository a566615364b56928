//! Lines for the program `replay` with the answers of the original alone: the port is not asked.
use crate::dice::Dice;
use crate::difference::hex;
use crate::kinds::{Kind, Kinds};
use crate::lives::{lead, lead_to, Call, Life, Said};
use crate::memory::Page;
use crate::shapes::Led;
use std::collections::BTreeSet;
use std::path::Path;
use std::{fs, io};

#[derive(Default)]
struct Recorded {
    lines: String,
    answers: String,
}

impl Recorded {
    fn add(&mut self, line: &str, answer: &str) {
        self.lines += &format!("{line}\n");
        self.answers += &format!("{answer}\n");
    }

    /// A whole life. The padding of inline texts, which the original does not set, is recorded as zeros.
    fn life(&mut self, life: &Life) -> Vec<u8> {
        self.add(&format!("new {}", life.archive.len()), "ok");
        for event in &life.events {
            if let Said::Place(place) = event.said {
                self.add(&event.call.line(), &format!("ok {place}"));
            }
        }
        let known = |(place, byte): (usize, &u8)| if life.unknown[place] { 0 } else { *byte };
        let archive: Vec<u8> = life.archive.iter().enumerate().map(known).collect();
        self.add("finish", &format!("ok {} {} {}", archive.len(), life.alignment, hex(&archive)));
        archive
    }

    /// What is accepted of a value, since of what is refused the original does not say why.
    fn looks(&mut self, page: &mut Page, kind: &dyn Kind, archive: &[u8], place: usize) {
        let archive: &[u8] = page.load(archive);
        if !kind.sits(archive, place) || kind.strange_to_look(archive, place) {
            return;
        }
        let of = format!("{} {} {place} {}", kind.name(), kind.order() as char, hex(archive));
        if kind.shallow(archive, place) {
            self.add(&format!("shallow {of}"), &format!("ok {place}"));
        }
        if let Led::To(step) = kind.step(archive, place) {
            self.step(&of, kind, archive, step.place, step.count);
        }
        if !kind.strange_to_read(archive, place) && kind.deep(archive, place) {
            self.add(&format!("deep {of}"), &format!("ok {place}"));
        }
    }

    /// One step; where it leads to what is empty the original has no place to record.
    fn step(&mut self, of: &str, kind: &dyn Kind, archive: &[u8], place: Option<usize>, count: usize) {
        let Some(place) = place else { return };
        let answer = match kind.name().as_bytes()[0] {
            b't' | b'i' => format!("ok {place} {}", hex(&archive[place..place + count])),
            b's' => format!("ok {place} {count}"),
            _ => format!("ok {place}"),
        };
        self.add(&format!("get {of}"), &answer);
    }
}

/// Writes `stdin.txt` and `stdout.txt` into a folder.
pub fn record(seed: u64, kinds: &Kinds, folder: &Path) -> io::Result<()> {
    let mut dice = Dice::new(seed);
    let mut page = Page::new(1 << 20);
    let mut recorded = Recorded::default();
    let mut seen = BTreeSet::new();
    for kind in kinds {
        let kind = &**kind;
        // Once for each name, and not again for a second type of the original's.
        if !seen.insert((kind.name(), kind.order())) {
            continue;
        }
        let life = lead_to(&mut dice, kind);
        let archive = recorded.life(&life);
        let (_, place) = life.records[0];
        recorded.looks(&mut page, kind, &archive, place);
        if seen.len() % 3 != 0 {
            continue;
        }
        damaged(&mut recorded, &mut dice, &mut page, kind, &archive, place);
    }
    for _ in 0..40 {
        let life = lead(&mut dice, kinds, 9);
        if short_enough(&life) && life.alignment != 0 {
            recorded.life(&life);
        }
    }
    fs::create_dir_all(folder)?;
    fs::write(folder.join("stdin.txt"), recorded.lines)?;
    fs::write(folder.join("stdout.txt"), recorded.answers)
}

/// A damaged copy, which may still be accepted.
fn damaged(recorded: &mut Recorded, dice: &mut Dice, page: &mut Page, kind: &dyn Kind, archive: &[u8], place: usize) {
    let mut other = archive.to_vec();
    let at = place + dice.below(archive.len() - place);
    other[at] ^= 1 << dice.below(8);
    recorded.looks(page, kind, &other, place);
}

/// Lives that align by a page would fill the file with zeros.
fn short_enough(life: &Life) -> bool {
    life.archive.len() < 400 && !life.events.iter().any(|event| matches!(&event.call, Call::Write(..)) && event.said == Said::Panicked(5))
}

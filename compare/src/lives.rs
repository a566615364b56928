//! Lives of builders, led by the original first, with calls from dice; the port is then asked for the same.
use crate::dice::Dice;
use crate::difference::{hex, Difference, Outcome, Tally};
use crate::kinds::{Kind, Kinds};
use crate::memory::Watched;
use crate::original::{AlignedBuffer, ZeroBuilder};
use crate::port::{self, Answer, Calls};
use std::panic::{catch_unwind, AssertUnwindSafe};
use std::sync::Once;

pub enum Call<'k> {
    Align(usize),
    Reserve(&'k dyn Kind),
    ReserveBytes(usize, usize),
    Write(usize, Vec<u8>),
    Push(&'k dyn Kind, Vec<u8>),
    PushBytes(Vec<u8>, usize),
    Build(&'k dyn Kind, Vec<u8>),
}

impl Call<'_> {
    /// The call as a line of `replay`.
    pub fn line(&self) -> String {
        let of = |kind: &dyn Kind| format!("{} {}", kind.name(), kind.order() as char);
        match self {
            Call::Align(alignment) => format!("align {alignment}"),
            Call::Reserve(kind) => format!("reserve {}", of(*kind)),
            Call::ReserveBytes(count, alignment) => format!("reserve_bytes {count} {alignment}"),
            Call::Write(place, bytes) => format!("write {place} {}", hex(bytes)),
            Call::Push(kind, bytes) => format!("push {} {}", of(*kind), hex(bytes)),
            Call::PushBytes(bytes, alignment) => format!("push_bytes {} {alignment}", hex(bytes)),
            Call::Build(kind, sheet) => format!("build {} {}", of(*kind), hex(sheet)),
        }
    }

    fn encode(&self, calls: &mut Calls) {
        match self {
            Call::Align(alignment) => calls.align(*alignment),
            Call::Reserve(kind) => calls.reserve(kind.name(), kind.order()),
            Call::ReserveBytes(count, alignment) => calls.reserve_bytes(*count, *alignment),
            Call::Write(place, bytes) => calls.write(*place, bytes),
            Call::Push(kind, bytes) => calls.push(kind.name(), kind.order(), bytes),
            Call::PushBytes(bytes, alignment) => calls.push_bytes(bytes, *alignment),
            Call::Build(kind, sheet) => calls.build(kind.name(), kind.order(), sheet),
        }
    }

    pub fn name(&self) -> &'static str {
        match self {
            Call::Align(_) => "align",
            Call::Reserve(_) => "reserve",
            Call::ReserveBytes(..) => "reserve_bytes",
            Call::Write(..) => "write",
            Call::Push(..) => "push",
            Call::PushBytes(..) => "push_bytes",
            Call::Build(..) => "build",
        }
    }
}

/// What the original said of a call.
#[derive(Clone, Copy, PartialEq, Eq)]
pub enum Said {
    Place(usize),
    /// It panicked, which a write past the used length does; the port refuses with this number.
    Panicked(u64),
    /// It was not asked, since it doesn't refuse this; the port refuses with this number.
    NotAsked(u64),
}

pub struct Event<'k> {
    pub call: Call<'k>,
    pub said: Said,
    /// The used length afterwards.
    pub used: usize,
}

/// A life that the original has led, and what is left of it.
pub struct Life<'k> {
    pub events: Vec<Event<'k>>,
    pub archive: AlignedBuffer,
    pub alignment: usize,
    /// Which bytes of the archive are the padding of inline texts, which the original does not set.
    pub unknown: Vec<bool>,
    pub records: Vec<(&'k dyn Kind, usize)>,
}

impl<'k> Life<'k> {
    pub fn lines(&self) -> Vec<String> {
        let room = self.archive.len();
        let calls = self.events.iter().map(|event| event.call.line());
        [format!("new {room}")].into_iter().chain(calls).chain(["finish".into()]).collect()
    }
}

/// A builder of the original at work.
struct Worker<'k> {
    builder: ZeroBuilder,
    events: Vec<Event<'k>>,
    unknown: Vec<bool>,
    records: Vec<(&'k dyn Kind, usize)>,
}

impl<'k> Worker<'k> {
    fn new() -> Worker<'k> {
        Worker { builder: ZeroBuilder::new(), events: Vec::new(), unknown: Vec::new(), records: Vec::new() }
    }

    fn used(&self) -> usize {
        self.builder.len()
    }

    fn make(&mut self, call: Call<'k>) {
        let before = self.used();
        let said = match &call {
            Call::Align(alignment) => Said::Place(self.builder.align(*alignment)),
            Call::Reserve(kind) => Said::Place(kind.reserve(&mut self.builder)),
            Call::ReserveBytes(count, alignment) => Said::Place(self.builder.reserve_bytes(*count, *alignment)),
            Call::Write(place, bytes) => self.write(*place, bytes),
            Call::Push(kind, bytes) => Said::Place(self.push(*kind, bytes)),
            Call::PushBytes(bytes, alignment) => Said::Place(self.builder.push_bytes(bytes, *alignment)),
            Call::Build(kind, sheet) => Said::Place(self.build(*kind, sheet)),
        };
        let used = self.used();
        assert!(used >= before);
        self.unknown.resize(used, false);
        if let (Call::Build(kind, sheet), Said::Place(place)) = (&call, said) {
            if kind.padded() {
                self.mark_seams(*kind, sheet, before, place);
            }
            self.records.push((*kind, place));
        }
        self.events.push(Event { call, said, used });
    }

    fn build(&mut self, kind: &dyn Kind, sheet: &[u8]) -> usize {
        kind.build(&mut self.builder, sheet)
    }

    fn push(&mut self, kind: &dyn Kind, bytes: &[u8]) -> usize {
        let mut there = [0u64; 8];
        // SAFETY: as many bytes, of which each may have any value.
        let room = unsafe { std::slice::from_raw_parts_mut(there.as_mut_ptr().cast::<u8>(), 64) };
        room[..bytes.len()].copy_from_slice(bytes);
        kind.push(&mut self.builder, &room[..bytes.len()])
    }

    /// Writes the bytes as an array of them, which is a value of the original's.
    fn write(&mut self, place: usize, bytes: &[u8]) -> Said {
        let builder = &mut self.builder;
        let wrote = quietly(AssertUnwindSafe(|| match bytes.len() {
            0 => builder.write::<[u8; 0]>(place, &[]),
            1 => builder.write::<[u8; 1]>(place, bytes.try_into().unwrap()),
            2 => builder.write::<[u8; 2]>(place, bytes.try_into().unwrap()),
            3 => builder.write::<[u8; 3]>(place, bytes.try_into().unwrap()),
            4 => builder.write::<[u8; 4]>(place, bytes.try_into().unwrap()),
            9 => builder.write::<[u8; 9]>(place, bytes.try_into().unwrap()),
            _ => unreachable!("no life writes so many bytes"),
        }));
        if wrote.is_none() {
            return Said::Panicked(5);
        }
        self.unknown[place..place + bytes.len()].fill(false);
        Said::Place(place)
    }

    /// Finds the padding of a record by building it once more, alone behind as many bytes.
    fn mark_seams(&mut self, kind: &dyn Kind, sheet: &[u8], before: usize, place: usize) {
        let mut alone = ZeroBuilder::new();
        alone.reserve_bytes(before, 1);
        assert_eq!(kind.build(&mut alone, sheet), place);
        let archive = alone.finish();
        for seam in kind.seams(&archive, place) {
            self.unknown[seam].fill(true);
        }
    }

    fn finish(self) -> Life<'k> {
        let archive = self.builder.finish();
        // An empty builder takes no memory, and so does not show its alignment.
        let alignment = if archive.is_empty() { 0 } else { Watched::last_alignment() };
        Life { events: self.events, archive, alignment, unknown: self.unknown, records: self.records }
    }
}

/// What a function gives, or nothing if it panics. Its panic is not printed.
pub fn quietly<R>(function: impl FnOnce() -> R + std::panic::UnwindSafe) -> Option<R> {
    QUIET.set(true);
    let given = catch_unwind(function).ok();
    QUIET.set(false);
    given
}

thread_local! {
    static QUIET: std::cell::Cell<bool> = const { std::cell::Cell::new(false) };
}

/// Has panics inside `quietly` say nothing.
pub fn hush() {
    static ONCE: Once = Once::new();
    ONCE.call_once(|| {
        let usual = std::panic::take_hook();
        std::panic::set_hook(Box::new(move |panic| {
            if !QUIET.get() {
                usual(panic);
            }
        }));
    });
}

const ALIGNMENTS: [usize; 10] = [0, 1, 1, 1, 2, 4, 8, 16, 64, 4096];

const NO_ALIGNMENTS: [usize; 5] = [3, 5, 6, 8192, usize::MAX];

/// Leads a life of so many calls at most.
pub fn lead<'k>(dice: &mut Dice, kinds: &'k Kinds, most: usize) -> Life<'k> {
    let mut worker = Worker::new();
    for _ in 0..dice.below(most + 1) {
        if dice.once_in(12) {
            let (call, number) = refused(dice, kinds);
            worker.events.push(Event { call, said: Said::NotAsked(number), used: worker.builder.len() });
        } else {
            let call = drawn(dice, kinds, worker.used());
            worker.make(call);
        }
    }
    worker.finish()
}

/// Some bytes, and one value behind them.
pub fn lead_to<'k>(dice: &mut Dice, kind: &'k dyn Kind) -> Life<'k> {
    let mut worker = Worker::new();
    let front = dice.below(10);
    worker.make(Call::PushBytes(dice.bytes(front), dice.one_of(&[0, 1])));
    let mut sheet = Vec::new();
    kind.draw(dice, &mut sheet);
    worker.make(Call::Build(kind, sheet));
    worker.finish()
}

fn any<'k>(dice: &mut Dice, kinds: &'k Kinds) -> &'k dyn Kind {
    &*kinds[dice.below(kinds.len())]
}

/// A call that the original answers, or panics at.
fn drawn<'k>(dice: &mut Dice, kinds: &'k Kinds, used: usize) -> Call<'k> {
    let kind = any(dice, kinds);
    match dice.below(16) {
        0 => Call::Align(dice.one_of(&ALIGNMENTS)),
        1 => Call::Reserve(kind),
        2 => Call::ReserveBytes(dice.below(20), dice.one_of(&ALIGNMENTS)),
        3 | 4 => {
            let bytes = dice.one_of(&[0, 1, 2, 3, 4, 9]);
            let place = match dice.below(12) {
                0 => dice.one_of(&[usize::MAX, usize::MAX - 3, 1 << 31, 1 << 32]),
                1 => used + 1,
                2 => used.saturating_sub(bytes),
                3 => used.saturating_sub(bytes) + 1,
                _ => dice.below(used + 1),
            };
            Call::Write(place, dice.bytes(bytes))
        }
        5 | 6 => {
            let bytes = head_bytes(dice, kind);
            Call::Push(kind, bytes)
        }
        7 | 8 => {
            let count = dice.below(8);
            Call::PushBytes(dice.bytes(count), dice.one_of(&ALIGNMENTS))
        }
        _ => {
            let mut sheet = Vec::new();
            kind.draw(dice, &mut sheet);
            Call::Build(kind, sheet)
        }
    }
}

/// Bytes of a kind's size that are a value of the original's type.
fn head_bytes(dice: &mut Dice, kind: &dyn Kind) -> Vec<u8> {
    if kind.plain() {
        return dice.bytes(kind.size());
    }
    // Truths are bytes 0 and 1; and these are distances, and characters where they are alone among zeros.
    let mut bytes = vec![0; kind.size()];
    for word in bytes.chunks_mut(4) {
        let lone = dice.below(word.len());
        word[lone] = dice.below(2) as u8;
    }
    let characters = kind.name().ends_with('c');
    if characters {
        bytes.fill(0);
    }
    bytes
}

/// A call that the port refuses by its arguments alone, and the number.
fn refused<'k>(dice: &mut Dice, kinds: &'k Kinds) -> (Call<'k>, u64) {
    let alignment = dice.one_of(&NO_ALIGNMENTS);
    match dice.below(4) {
        0 => (Call::Align(alignment), 3),
        1 => (Call::ReserveBytes(dice.below(9), alignment), 3),
        2 => (Call::PushBytes(dice.bytes(3), alignment), 3),
        _ => {
            let kind = any(dice, kinds);
            let size = kind.size() + 1 - 2 * dice.below(2);
            (Call::Push(kind, dice.bytes(size)), 6)
        }
    }
}

/// What comparing needs again and again.
#[derive(Default)]
pub struct Lives {
    calls: Calls,
    buffer: Vec<u8>,
    answers: Vec<Answer>,
}

impl Lives {
    /// The port leads the same life, over a buffer that is just long enough; and once more up to a call of which the last
    /// byte has no room. Gives the archive that the port left.
    pub fn compare(&mut self, tally: &mut Tally, dice: &mut Dice, life: &Life) -> Result<Vec<u8>, Difference> {
        self.run(dice, &life.events, life.archive.len());
        self.compare_calls(tally, life)?;
        let mut archive = std::mem::take(&mut self.buffer);
        self.compare_archive(tally, life, &mut archive)?;
        self.compare_short(tally, dice, life)?;
        Ok(archive)
    }

    /// Has the port make the calls, with the used length asked for after each, and finish.
    fn run(&mut self, dice: &mut Dice, events: &[Event], room: usize) {
        self.calls.clear();
        for event in events {
            event.call.encode(&mut self.calls);
            self.calls.align(0);
        }
        self.calls.finish();
        self.buffer = dice.bytes(room);
        let whole = port::life(&self.calls, &mut self.buffer, &mut self.answers);
        assert!(whole.accepted() && whole.value == self.calls.count() as u64, "{}", whole.said());
    }

    fn compare_calls(&mut self, tally: &mut Tally, life: &Life) -> Outcome {
        for (i, event) in life.events.iter().enumerate() {
            let answer = tally.verdict(event.call.name(), self.answers[2 * i]);
            let same = match event.said {
                Said::Place(place) => answer.accepted() && tally.number("the place of a call", answer.value) == place as u64,
                Said::Panicked(number) => {
                    tally.count("write: past the used length, where Rust panics");
                    answer.refusal == number
                }
                Said::NotAsked(number) => {
                    tally.count("left out: calls that only the port refuses");
                    answer.refusal == number
                }
            };
            if !same {
                return Err(self.unlike(life, format!("call {}: {}", i + 1, said(event.said)), answer.said()));
            }
            let used = tally.number("the used length after a call", self.answers[2 * i + 1].value);
            if used != event.used as u64 {
                return Err(self.unlike(life, format!("used length after call {}: {}", i + 1, event.used), format!("{used}")));
            }
        }
        let finished = *self.answers.last().unwrap();
        let length = tally.number("finish: the length", finished.value);
        // Of an empty archive the original shows no alignment.
        let alignment = match life.alignment {
            0 => 0,
            _ => tally.number("finish: the alignment", finished.count),
        };
        if length != life.archive.len() as u64 || alignment != life.alignment as u64 {
            let rust = format!("finish: {} {}", life.archive.len(), life.alignment);
            return Err(self.unlike(life, rust, format!("{length} {alignment}")));
        }
        Ok(())
    }

    fn compare_archive(&mut self, tally: &mut Tally, life: &Life, archive: &mut [u8]) -> Outcome {
        tally.bytes("the whole archive", archive);
        for (place, byte) in archive.iter().enumerate() {
            let due = if life.unknown[place] { 0 } else { life.archive[place] };
            if life.unknown[place] {
                tally.count("left out: bytes of padding that Rust does not set");
                if life.archive[place] != 0 {
                    tally.count("left out: bytes of padding that Rust does not set, and that are not 0");
                }
            }
            if *byte != due {
                let rust = format!("{due:02X} at {place}; the archive {}", hex(&life.archive));
                return Err(self.unlike(life, rust, format!("{byte:02X} at {place}; the archive {}", hex(archive))));
            }
        }
        Ok(())
    }

    /// A call that makes the archive longer is refused where its last byte has no room, and then nothing has changed.
    fn compare_short(&mut self, tally: &mut Tally, dice: &mut Dice, life: &Life) -> Outcome {
        if life.events.is_empty() {
            return Ok(());
        }
        let last = dice.below(life.events.len());
        let used = life.events[last].used;
        let before = if last == 0 { 0 } else { life.events[last - 1].used };
        if used == before {
            return Ok(());
        }
        self.run(dice, &life.events[..=last], used - 1);
        let answer = tally.verdict("calls whose last byte has no room", self.answers[2 * last]);
        let left = self.answers[2 * last + 1].value;
        if answer.refusal != 4 || left != before as u64 {
            let rust = format!("call {} makes the used length {used}, from {before}", last + 1);
            return Err(self.unlike(life, rust, format!("in a buffer of {} bytes: {}; used {left}", used - 1, answer.said())));
        }
        Ok(())
    }

    fn unlike(&self, life: &Life, rust: String, port: String) -> Difference {
        Difference { lines: life.lines(), rust, port }
    }
}

fn said(said: Said) -> String {
    match said {
        Said::Place(place) => format!("{place}"),
        Said::Panicked(number) => format!("panicked; by the format the refusal {number}"),
        Said::NotAsked(number) => format!("not asked; by the format the refusal {number}"),
    }
}

//! Times the port, through its static library, and the original on the same inputs, one after the other, and prints a
//! table: the median of the repeats of each, and port/Rust as a ratio.
use compare::dice::Dice;
use compare::memory::Page;
use compare::original::{DeepValidator, LittleEndian, SliceBuilder, ZeroBuilder, ZeroCopyBuilder, ZeroSlice, ZeroStr};
use compare::port::{self, Answer, Calls};
use compare::shapes::{Shape, Sheet};
use std::hint::black_box;
use std::time::Duration;

type Texts = ZeroSlice<ZeroStr<LittleEndian>, 0, LittleEndian>;

const REPEATS: usize = 31;

const L: u8 = b'l';

/// What is done, in how long by each side; `rust` is what the original does where that is not the same.
struct Row {
    what: String,
    port: Duration,
    rust: Duration,
    note: &'static str,
}

fn main() {
    let (twelve, nothing) = (Words::Twelve, Words::Nothing);
    let texts = [of_texts(twelve), of_texts(nothing)];
    let rows = texts.into_iter().chain([of_numbers(), text_checks(), steps(twelve), steps(nothing)]).flatten();
    println!("| what | port | Rust | port/Rust | |\n|-|-|-|-|-|");
    for Row { what, port, rust, note } in rows {
        println!("| {what} | {} | {} | {:.2} | {note} |", told(port), told(rust), port.as_secs_f64() / rust.as_secs_f64());
    }
}

fn told(time: Duration) -> String {
    match time.as_nanos() {
        nanos if nanos < 10_000 => format!("{nanos} ns"),
        nanos if nanos < 10_000_000 => format!("{:.1} µs", nanos as f64 / 1e3),
        nanos => format!("{:.2} ms", nanos as f64 / 1e6),
    }
}

/// The medians of two things that are done in turn. What `ready` makes is not timed, nor is the end of what they leave.
fn in_turn<A, B, R, S>(
    mut ready_a: impl FnMut() -> A,
    mut a: impl FnMut(A) -> R,
    mut ready_b: impl FnMut() -> B,
    mut b: impl FnMut(B) -> S,
) -> (Duration, Duration) {
    let (mut of_a, mut of_b) = (Vec::new(), Vec::new());
    for _ in 0..REPEATS + 2 {
        of_a.push(timed(ready_a(), &mut a));
        of_b.push(timed(ready_b(), &mut b));
    }
    // The first two warm up.
    (median(&mut of_a[2..]), median(&mut of_b[2..]))
}

fn timed<A, R>(input: A, function: &mut impl FnMut(A) -> R) -> Duration {
    let begun = processor_time();
    let left = black_box(function(black_box(input)));
    let time = processor_time() - begun;
    drop(left);
    time
}

/// The time that this thread has had a processor: what else the machine does is not counted.
fn processor_time() -> Duration {
    const THREAD_CPUTIME: i32 = 3;
    let mut time = [0i64; 2];
    // SAFETY: seconds and nanoseconds, as Linux on 64 bits has them.
    let status = unsafe { clock_gettime(THREAD_CPUTIME, &mut time) };
    assert_eq!(status, 0);
    Duration::new(time[0] as u64, time[1] as u32)
}

extern "C" {
    fn clock_gettime(clock: i32, time: &mut [i64; 2]) -> i32;
}

fn median(times: &mut [Duration]) -> Duration {
    times.sort();
    times[times.len() / 2]
}

fn row(what: impl Into<String>, (port, rust): (Duration, Duration), note: &'static str) -> Row {
    Row { what: what.into(), port, rust, note }
}

/// The life of one build, as the library is handed it.
fn one_build(kind: &str, sheet: &[u8]) -> Calls {
    let mut calls = Calls::default();
    calls.build(kind, L, sheet);
    calls.finish();
    calls
}

fn build(calls: &Calls, buffer: &mut [u8]) -> usize {
    let mut answers = [Answer::default(); 2];
    let whole = port::life_into(calls, buffer, &mut answers);
    assert!(whole.accepted() && answers.iter().all(Answer::accepted));
    answers[1].value as usize
}

/// The rows on one kind of slice and its sheet; the archive is left loaded at a page.
fn of_slice<T: Shape<LittleEndian> + DeepValidator>(kind: &str, what: &str, sheet: &[u8]) -> (Vec<Row>, Page, usize)
where
    ZeroSlice<T, 0, LittleEndian>: Shape<LittleEndian, Value = SliceBuilder<T::Value, 0>>,
{
    type Of<T> = ZeroSlice<T, 0, LittleEndian>;
    let value = || <Of<T> as Shape<LittleEndian>>::value(&mut Sheet::new(sheet));
    let finished = |value: SliceBuilder<T::Value, 0>| {
        let mut builder = ZeroBuilder::new();
        ZeroCopyBuilder::<LittleEndian, 0>::build(value, &mut builder);
        builder.finish()
    };
    let length = finished(value()).len();
    let calls = one_build(kind, sheet);
    let mut kept = Page::new(length);
    assert_eq!(build(&calls, kept.bytes()), length);
    assert_eq!(kept.bytes(), &*finished(value()));
    let mut rows = Vec::new();

    let times = in_turn(|| (), |()| build(&calls, kept.bytes()), || (), |()| finished(value()));
    rows.push(row(
        format!("build {what}"),
        times,
        "the port into a buffer that was used before and not cleared; Rust makes its values from the sheet",
    ));
    let times = in_turn(|| (), |()| build(&calls, kept.bytes()), value, finished);
    rows.push(row(format!("build {what}"), times, "the same; Rust's values stand ready"));
    let fresh = || vec![0; length];
    let times = in_turn(
        || (),
        |()| {
            let mut buffer = fresh();
            build(&calls, &mut buffer);
            buffer
        },
        value,
        finished,
    );
    rows.push(row(format!("build {what}"), times, "the port into a new, cleared buffer each time; Rust's values stand ready"));

    let archive: &[u8] = kept.bytes();
    let head: &Of<T> = head(archive);
    // What takes no time is done often, so that the clock sees it.
    let often = if T::PLAIN && size_of::<T>() == 4 { 1000 } else { 1 };
    let (port, rust) = in_turn(
        || (),
        |()| (0..often).for_each(|_| assert!(port::is_valid_deep(kind, L, black_box(archive), 0).accepted())),
        || (),
        |()| (0..often).for_each(|_| assert!(black_box(head).is_valid_deep(black_box(archive)))),
    );
    rows.push(row(format!("deep check of {what}"), (port / often, rust / often), ""));

    let mut output = vec![0; sheet.len()];
    let mut read = Vec::with_capacity(sheet.len());
    let times = in_turn(
        || (),
        |()| assert_eq!(port::copy_out(kind, L, archive, 0, &mut output).value as usize, sheet.len()),
        || (),
        |()| {
            read.clear();
            black_box(head).read(black_box(archive), &mut read);
        },
    );
    assert!(output == sheet && read == sheet);
    rows.push(row(
        format!("copy out {what}"),
        times,
        "Rust has no such call: all is read by `get`, and the sheet is put into a `Vec` with room",
    ));
    (rows, kept, length)
}

fn head<T>(archive: &[u8]) -> &T {
    assert!(size_of::<T>() <= archive.len() && archive.as_ptr() as usize % align_of::<T>() == 0);
    // SAFETY: it lies within the archive and is aligned, and any bytes are a count and a distance.
    unsafe { &*archive.as_ptr().cast::<T>() }
}

/// What stands in a sheet of texts.
#[derive(Clone, Copy)]
enum Words {
    /// Each of 12 bytes.
    Twelve,
    /// Nothing: there is no text to check.
    Nothing,
}

impl Words {
    fn text(self, i: u32) -> String {
        match self {
            Words::Twelve => format!("plate {i:06}"),
            Words::Nothing => String::new(),
        }
    }

    fn what(self) -> &'static str {
        match self {
            Words::Twelve => "texts of 12 bytes",
            Words::Nothing => "texts of no bytes",
        }
    }
}

fn sheet_of_texts(count: u32, words: Words) -> Vec<u8> {
    let mut sheet = b"SL".to_vec();
    sheet.extend(count.to_le_bytes());
    for i in 0..count {
        let text = words.text(i);
        sheet.extend(b"TX");
        sheet.extend((text.len() as u32).to_le_bytes());
        sheet.extend(text.as_bytes());
    }
    sheet
}

fn sheet_of_numbers(count: u32) -> Vec<u8> {
    let mut dice = Dice::new(1);
    let mut sheet = b"SL".to_vec();
    sheet.extend(count.to_le_bytes());
    for _ in 0..count {
        sheet.extend(b"N4");
        sheet.extend((dice.next() as u32).to_le_bytes());
    }
    sheet
}

fn of_texts(words: Words) -> Vec<Row> {
    of_slice::<ZeroStr<LittleEndian>>("st", &format!("100,000 {}", words.what()), &sheet_of_texts(100_000, words)).0
}

fn of_numbers() -> Vec<Row> {
    let mut rows = of_slice::<u32>("s4", "1,000,000 numbers of 4 bytes", &sheet_of_numbers(1_000_000)).0;
    let few = of_slice::<u32>("s4", "1,000 numbers of 4 bytes", &sheet_of_numbers(1_000)).0;
    rows.extend(few.into_iter().filter(|row| row.what.starts_with("deep")));
    rows
}

fn text_checks() -> Vec<Row> {
    const LENGTH: usize = 64 * 1024;
    let ascii = vec![b'a'; LENGTH];
    let mixed: Vec<u8> = "plate é 日本 \u{1F6A2} ".bytes().cycle().take(LENGTH).collect();
    let whole = (LENGTH - 3..=LENGTH).rev().find(|end| core::str::from_utf8(&mixed[..*end]).is_ok()).unwrap();
    let check = |what: &str, bytes: &[u8]| {
        let in_rust = |()| core::str::from_utf8(black_box(bytes)).is_ok();
        row(
            format!("text check of 64 KiB, {what}"),
            in_turn(|| (), |()| port::is_text(bytes), || (), in_rust),
            "Rust: `core::str::from_utf8`",
        )
    };
    vec![check("ASCII", &ascii), check("mixed", &mixed[..whole])]
}

/// Steps to texts in the middle of an archive of many, each at a place from dice.
fn steps(words: Words) -> Vec<Row> {
    const COUNT: u32 = 100_000;
    const STEPS: usize = 100_000;
    let (_, mut page, _) = of_slice::<ZeroStr<LittleEndian>>("st", "", &sheet_of_texts(COUNT, words));
    let archive: &[u8] = page.bytes();
    let mut dice = Dice::new(2);
    let places: Vec<usize> = (0..STEPS).map(|_| 8 + 8 * dice.below(COUNT as usize)).collect();
    let in_port = |()| places.iter().map(|place| port::get("t", L, archive, *place).count).sum::<u64>();
    let texts = head::<Texts>(archive).get(archive).unwrap();
    let in_rust = |()| places.iter().map(|place| texts[(place - 8) / 8].get(black_box(archive)).unwrap().len() as u64).sum::<u64>();
    assert_eq!(in_port(()), in_rust(()));
    let (port, rust) = in_turn(|| (), in_port, || (), in_rust);
    let each = (port / STEPS as u32, rust / STEPS as u32);
    let what = format!("`get` of one of 100,000 {}", words.what());
    vec![row(what, each, "each of 100,000 at random; the port finds the kind by its name at each")]
}

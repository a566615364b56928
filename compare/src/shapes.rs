//! The kinds of the catalogue as types of the original, and what a comparison needs of each: a value from its sheet, one
//! step, a reading, and where a head holds bytes that the type has no value for.
use crate::dice::Dice;
use crate::original::{
    ArrayBuilder, BigEndian, DeepValidator, Endian, FixedString, LittleEndian, RelativeBuilder, RelativePtr, SliceBuilder, ZeroArray,
    ZeroCopy, ZeroCopyBuilder, ZeroSlice, ZeroStr, ZeroString,
};
use std::ops::Range;

/// A byte order that both sides have.
pub trait Order: Endian + 'static {
    /// How the port names it.
    const LETTER: u8;

    fn number(bytes: [u8; 4]) -> u32;

    fn laid(number: u32) -> [u8; 4];

    /// A character of which the original can be built without a panic.
    fn character(dice: &mut Dice) -> char;
}

impl Order for LittleEndian {
    const LETTER: u8 = b'l';

    fn number(bytes: [u8; 4]) -> u32 {
        u32::from_le_bytes(bytes)
    }

    fn laid(number: u32) -> [u8; 4] {
        number.to_le_bytes()
    }

    fn character(dice: &mut Dice) -> char {
        let last = dice.one_of(&[0x7F, 0x7FF, 0xFFFF, 0x10FFFF]);
        let edge = dice.one_of(&['\0', 'A', 'é', '\u{D7FF}', '\u{E000}', '\u{FFFD}', '\u{10FFFF}']);
        char::from_u32(dice.below(last + 1) as u32).unwrap_or(edge)
    }
}

impl Order for BigEndian {
    const LETTER: u8 = b'b';

    fn number(bytes: [u8; 4]) -> u32 {
        u32::from_be_bytes(bytes)
    }

    fn laid(number: u32) -> [u8; 4] {
        number.to_be_bytes()
    }

    /// The original turns a character's bytes round and unwraps what should be a character again.
    fn character(dice: &mut Dice) -> char {
        loop {
            let turned = (dice.below(0x11) as u32) << 8 | (dice.byte() as u32) << 16;
            if let (Some(character), Some(_)) = (char::from_u32(turned), char::from_u32(turned.swap_bytes())) {
                return character;
            }
        }
    }
}

/// What one step tells. The original has no place for what is empty, but for an inline text.
#[derive(Clone, Copy, Debug, PartialEq, Eq)]
pub struct Step {
    pub place: Option<usize>,
    pub count: usize,
}

/// Whether a kind has one step, and what it tells.
pub enum Led {
    Nowhere,
    Refused,
    To(Step),
}

/// A sheet that is being read. It is sound: `draw` made it.
pub struct Sheet<'s> {
    bytes: &'s [u8],
    at: usize,
}

impl<'s> Sheet<'s> {
    pub fn new(bytes: &'s [u8]) -> Sheet<'s> {
        Sheet { bytes, at: 0 }
    }

    fn next(&mut self, count: usize) -> &'s [u8] {
        let part = &self.bytes[self.at..self.at + count];
        self.at += count;
        part
    }

    fn mark(&mut self, mark: &[u8; 2]) {
        let next = self.next(2);
        debug_assert_eq!(next, mark);
    }

    fn number<const WIDTH: usize>(&mut self) -> [u8; WIDTH] {
        self.next(WIDTH).try_into().unwrap()
    }

    fn text(&mut self) -> String {
        let length = u32::from_le_bytes(self.number()) as usize;
        String::from_utf8(self.next(length).to_vec()).unwrap()
    }
}

pub trait Shape<O: Order>: ZeroCopy + DeepValidator + Sized + 'static {
    type Value: ZeroCopyBuilder<O, 0, Target = Self>;

    /// Whether every byte is one of a value: nothing of it is a truth or a character.
    const PLAIN: bool;

    /// Whether the head of the original has padding, of which nobody knows what is in it.
    const PADDED: bool;

    fn name() -> String;

    fn draw(dice: &mut Dice, sheet: &mut Vec<u8>);

    fn value(sheet: &mut Sheet) -> Self::Value;

    fn step(&self, _archive: &[u8]) -> Led {
        Led::Nowhere
    }

    /// Adds the sheet of what passed the deep check.
    fn read(&self, archive: &[u8], sheet: &mut Vec<u8>);

    /// Whether the head at a place where it sits has bytes that are no value of the type: no reference to it may be made.
    fn strange(_archive: &[u8], _at: usize) -> bool {
        false
    }

    /// The same of all that one look makes references to.
    fn strange_to_look(archive: &[u8], at: usize) -> bool {
        Self::strange(archive, at)
    }

    /// The same of all that the deep check may come to.
    fn strange_to_read(archive: &[u8], at: usize) -> bool {
        Self::strange(archive, at)
    }

    /// Adds the padding of the heads of a sound record.
    fn seams(&self, _archive: &[u8], _seams: &mut Vec<Range<usize>>) {}
}

/// The place of a part of an archive.
fn place_of<T>(part: *const T, archive: &[u8]) -> usize {
    part as usize - archive.as_ptr() as usize
}

fn word(archive: &[u8], at: usize) -> [u8; 4] {
    archive[at..at + 4].try_into().unwrap()
}

/// Where the distance at a place leads, if `size` bytes sit there.
fn target<O: Order>(archive: &[u8], at: usize, size: usize, align: usize) -> Option<usize> {
    let place = at as i64 + i64::from(O::number(word(archive, at)) as i32);
    let end = place as i128 + size as i128;
    (place >= 0 && end <= archive.len() as i128 && place as usize % align == 0).then_some(place as usize)
}

macro_rules! numbers {
    ($($number:ty as $bits:ty, $mark:literal, $name:literal, $bits_of:expr, $native:expr;)*) => {$(
        impl<O: Order> Shape<O> for $number {
            type Value = $number;
            const PLAIN: bool = true;
            const PADDED: bool = false;

            fn name() -> String {
                $name.into()
            }

            fn draw(dice: &mut Dice, sheet: &mut Vec<u8>) {
                let number = match dice.below(4) {
                    0 => dice.below(4) as $bits,
                    1 => <$bits>::MAX - dice.below(4) as $bits,
                    _ => dice.next() as $bits,
                };
                sheet.extend($mark);
                sheet.extend(number.to_le_bytes());
            }

            fn value(sheet: &mut Sheet) -> $number {
                sheet.mark($mark);
                <$number>::from_le_bytes(sheet.number())
            }

            fn read(&self, _archive: &[u8], sheet: &mut Vec<u8>) {
                let bits: $bits = $bits_of(*self);
                let native: fn($bits) -> $bits = $native;
                sheet.extend($mark);
                sheet.extend(native(bits).to_le_bytes());
            }
        }
    )*};
}

numbers! {
    u8 as u8, b"N1", "1", |n| n, |n| n;
    u16 as u16, b"N2", "2", |n| n, O::to_native_u16;
    u32 as u32, b"N4", "4", |n| n, O::to_native_u32;
    u64 as u64, b"N8", "8", |n| n, O::to_native_u64;
    i8 as u8, b"N1", "1", |n| n as u8, |n| n;
    i16 as u16, b"N2", "2", |n| n as u16, O::to_native_u16;
    i32 as u32, b"N4", "4", |n| n as u32, O::to_native_u32;
    i64 as u64, b"N8", "8", |n| n as u64, O::to_native_u64;
    f32 as u32, b"N4", "4", f32::to_bits, O::to_native_u32;
    f64 as u64, b"N8", "8", f64::to_bits, O::to_native_u64;
}

impl<O: Order> Shape<O> for bool {
    type Value = bool;
    const PLAIN: bool = false;
    const PADDED: bool = false;

    fn name() -> String {
        "b".into()
    }

    fn draw(dice: &mut Dice, sheet: &mut Vec<u8>) {
        sheet.extend(b"BO");
        sheet.push(dice.below(2) as u8);
    }

    fn value(sheet: &mut Sheet) -> bool {
        sheet.mark(b"BO");
        sheet.number() == [1]
    }

    fn read(&self, _archive: &[u8], sheet: &mut Vec<u8>) {
        sheet.extend(b"BO");
        sheet.push(u8::from(*self));
    }

    fn strange(archive: &[u8], at: usize) -> bool {
        archive[at] > 1
    }
}

impl<O: Order> Shape<O> for char {
    type Value = char;
    const PLAIN: bool = false;
    const PADDED: bool = false;

    fn name() -> String {
        "c".into()
    }

    fn draw(dice: &mut Dice, sheet: &mut Vec<u8>) {
        sheet.extend(b"CH");
        sheet.extend(u32::from(O::character(dice)).to_le_bytes());
    }

    fn value(sheet: &mut Sheet) -> char {
        sheet.mark(b"CH");
        char::from_u32(u32::from_le_bytes(sheet.number())).unwrap()
    }

    fn read(&self, _archive: &[u8], sheet: &mut Vec<u8>) {
        sheet.extend(b"CH");
        sheet.extend(O::to_native_u32(u32::from(*self)).to_le_bytes());
    }

    /// A `char` in memory is in the machine's order, and the character of the format in the kind's: both must be one.
    fn strange(archive: &[u8], at: usize) -> bool {
        let bytes = word(archive, at);
        char::from_u32(u32::from_ne_bytes(bytes)).is_none() || char::from_u32(O::number(bytes)).is_none()
    }
}

const PIECES: [&str; 9] = ["A7", "é", "plate", "日本", "\0", "\u{1F6A2}", "ß", "\u{7FF}\u{800}", "\u{FFFF}\u{10000}"];

fn draw_text(dice: &mut Dice, mark: &[u8; 2], sheet: &mut Vec<u8>) {
    let pieces = dice.one_of(&[0, 1, 1, 2, 2, 3, 4, 9]);
    let text: String = (0..pieces).map(|_| dice.one_of(&PIECES)).collect();
    put_text(mark, &text, sheet);
}

fn put_text(mark: &[u8; 2], text: &str, sheet: &mut Vec<u8>) {
    sheet.extend(mark);
    sheet.extend((text.len() as u32).to_le_bytes());
    sheet.extend(text.as_bytes());
}

impl<O: Order> Shape<O> for ZeroStr<O> {
    type Value = String;
    const PLAIN: bool = true;
    const PADDED: bool = false;

    fn name() -> String {
        "t".into()
    }

    fn draw(dice: &mut Dice, sheet: &mut Vec<u8>) {
        draw_text(dice, b"TX", sheet);
    }

    fn value(sheet: &mut Sheet) -> String {
        sheet.mark(b"TX");
        sheet.text()
    }

    fn step(&self, archive: &[u8]) -> Led {
        match self.get(archive) {
            None => Led::Refused,
            Some("") => Led::To(Step { place: None, count: 0 }),
            Some(text) => Led::To(Step { place: Some(place_of(text.as_ptr(), archive)), count: text.len() }),
        }
    }

    fn read(&self, archive: &[u8], sheet: &mut Vec<u8>) {
        put_text(b"TX", self.get(archive).unwrap(), sheet);
    }
}

impl<O: Order, const CAP: usize> Shape<O> for ZeroString<CAP, O> {
    type Value = FixedString<CAP>;
    const PLAIN: bool = true;
    const PADDED: bool = CAP % 4 != 0;

    fn name() -> String {
        format!("i{CAP}.")
    }

    fn draw(dice: &mut Dice, sheet: &mut Vec<u8>) {
        draw_text(dice, b"TI", sheet);
    }

    fn value(sheet: &mut Sheet) -> FixedString<CAP> {
        sheet.mark(b"TI");
        FixedString(sheet.text())
    }

    fn step(&self, archive: &[u8]) -> Led {
        match self.get() {
            None => Led::Refused,
            Some(text) => Led::To(Step { place: Some(place_of(text.as_ptr(), archive)), count: text.len() }),
        }
    }

    fn read(&self, _archive: &[u8], sheet: &mut Vec<u8>) {
        put_text(b"TI", self.get().unwrap(), sheet);
    }

    fn seams(&self, archive: &[u8], seams: &mut Vec<Range<usize>>) {
        let at = place_of(self, archive);
        seams.push(at + 4 + CAP..at + size_of::<Self>());
    }
}

impl<O: Order, T: Shape<O>> Shape<O> for RelativePtr<T, 0, O> {
    type Value = RelativeBuilder<T::Value, 0>;
    const PLAIN: bool = T::PLAIN;
    const PADDED: bool = T::PADDED;

    fn name() -> String {
        format!("p{}", T::name())
    }

    fn draw(dice: &mut Dice, sheet: &mut Vec<u8>) {
        sheet.extend(b"RP");
        T::draw(dice, sheet);
    }

    fn value(sheet: &mut Sheet) -> Self::Value {
        sheet.mark(b"RP");
        RelativeBuilder(T::value(sheet))
    }

    fn step(&self, archive: &[u8]) -> Led {
        match self.get(archive) {
            None => Led::Refused,
            Some(to) => Led::To(Step { place: Some(place_of(to, archive)), count: 0 }),
        }
    }

    fn read(&self, archive: &[u8], sheet: &mut Vec<u8>) {
        sheet.extend(b"RP");
        self.get(archive).unwrap().read(archive, sheet);
    }

    fn strange_to_look(archive: &[u8], at: usize) -> bool {
        target::<O>(archive, at, T::SIZE, T::ALIGN).is_some_and(|to| T::strange(archive, to))
    }

    fn strange_to_read(archive: &[u8], at: usize) -> bool {
        target::<O>(archive, at, T::SIZE, T::ALIGN).is_some_and(|to| T::strange(archive, to) || T::strange_to_read(archive, to))
    }

    fn seams(&self, archive: &[u8], seams: &mut Vec<Range<usize>>) {
        self.get(archive).unwrap().seams(archive, seams);
    }
}

impl<O: Order, T: Shape<O>, const N: usize> Shape<O> for [T; N] {
    type Value = [T::Value; N];
    const PLAIN: bool = T::PLAIN;
    const PADDED: bool = T::PADDED;

    fn name() -> String {
        format!("r{N}.{}", T::name())
    }

    fn draw(dice: &mut Dice, sheet: &mut Vec<u8>) {
        sheet.extend(b"AN");
        (0..N).for_each(|_| T::draw(dice, sheet));
    }

    fn value(sheet: &mut Sheet) -> Self::Value {
        sheet.mark(b"AN");
        std::array::from_fn(|_| T::value(sheet))
    }

    fn read(&self, archive: &[u8], sheet: &mut Vec<u8>) {
        sheet.extend(b"AN");
        self.iter().for_each(|item| item.read(archive, sheet));
    }

    fn strange(archive: &[u8], at: usize) -> bool {
        (0..N).any(|i| T::strange(archive, at + i * T::SIZE))
    }

    fn strange_to_look(archive: &[u8], at: usize) -> bool {
        (0..N).any(|i| T::strange_to_look(archive, at + i * T::SIZE))
    }

    fn strange_to_read(archive: &[u8], at: usize) -> bool {
        (0..N).any(|i| T::strange_to_read(archive, at + i * T::SIZE))
    }

    fn seams(&self, archive: &[u8], seams: &mut Vec<Range<usize>>) {
        self.iter().for_each(|item| item.seams(archive, seams));
    }
}

impl<O: Order, T: Shape<O>, const N: usize> Shape<O> for ZeroArray<T, N, 0, O> {
    type Value = ArrayBuilder<T::Value, N, 0>;
    const PLAIN: bool = T::PLAIN;
    const PADDED: bool = T::PADDED;

    fn name() -> String {
        format!("a{N}.{}", T::name())
    }

    fn draw(dice: &mut Dice, sheet: &mut Vec<u8>) {
        sheet.extend(b"AR");
        (0..N).for_each(|_| T::draw(dice, sheet));
    }

    fn value(sheet: &mut Sheet) -> Self::Value {
        sheet.mark(b"AR");
        ArrayBuilder(std::array::from_fn(|_| T::value(sheet)))
    }

    fn step(&self, archive: &[u8]) -> Led {
        match self.get(archive) {
            None => Led::Refused,
            Some(to) => Led::To(Step { place: Some(place_of(to, archive)), count: 0 }),
        }
    }

    fn read(&self, archive: &[u8], sheet: &mut Vec<u8>) {
        sheet.extend(b"AR");
        self.get(archive).unwrap().iter().for_each(|item| item.read(archive, sheet));
    }

    fn strange_to_look(archive: &[u8], at: usize) -> bool {
        target::<O>(archive, at, N * T::SIZE, T::ALIGN).is_some_and(|to| <[T; N]>::strange(archive, to))
    }

    fn strange_to_read(archive: &[u8], at: usize) -> bool {
        target::<O>(archive, at, N * T::SIZE, T::ALIGN)
            .is_some_and(|to| <[T; N]>::strange(archive, to) || <[T; N]>::strange_to_read(archive, to))
    }

    fn seams(&self, archive: &[u8], seams: &mut Vec<Range<usize>>) {
        self.get(archive).unwrap().iter().for_each(|item| item.seams(archive, seams));
    }
}

/// The items of the slice at a place: where they sit if they all do, else the first alone, to which a reference is made too.
fn items<O: Order, T: Shape<O>>(archive: &[u8], at: usize) -> Vec<usize> {
    let count = O::number(word(archive, at)) as usize;
    let first = match count {
        0 => None,
        _ => target::<O>(archive, at + 4, T::SIZE, T::ALIGN),
    };
    let Some(first) = first else { return Vec::new() };
    let all = target::<O>(archive, at + 4, count.saturating_mul(T::SIZE), T::ALIGN).is_some();
    (0..if all { count } else { 1 }).map(|i| first + i * T::SIZE).collect()
}

impl<O: Order, T: Shape<O>> Shape<O> for ZeroSlice<T, 0, O> {
    type Value = SliceBuilder<T::Value, 0>;
    const PLAIN: bool = T::PLAIN;
    const PADDED: bool = T::PADDED;

    fn name() -> String {
        format!("s{}", T::name())
    }

    fn draw(dice: &mut Dice, sheet: &mut Vec<u8>) {
        let count = dice.one_of(&[0, 1, 1, 2, 3, 5]);
        sheet.extend(b"SL");
        sheet.extend((count as u32).to_le_bytes());
        (0..count).for_each(|_| T::draw(dice, sheet));
    }

    fn value(sheet: &mut Sheet) -> Self::Value {
        sheet.mark(b"SL");
        let count = u32::from_le_bytes(sheet.number());
        SliceBuilder((0..count).map(|_| T::value(sheet)).collect())
    }

    fn step(&self, archive: &[u8]) -> Led {
        match self.get(archive) {
            None => Led::Refused,
            Some([]) => Led::To(Step { place: None, count: 0 }),
            Some(items) => Led::To(Step { place: Some(place_of(items.as_ptr(), archive)), count: items.len() }),
        }
    }

    fn read(&self, archive: &[u8], sheet: &mut Vec<u8>) {
        let items = self.get(archive).unwrap();
        sheet.extend(b"SL");
        sheet.extend((items.len() as u32).to_le_bytes());
        items.iter().for_each(|item| item.read(archive, sheet));
    }

    fn strange_to_look(archive: &[u8], at: usize) -> bool {
        items::<O, T>(archive, at).into_iter().any(|item| T::strange(archive, item))
    }

    fn strange_to_read(archive: &[u8], at: usize) -> bool {
        items::<O, T>(archive, at).into_iter().any(|item| T::strange(archive, item) || T::strange_to_read(archive, item))
    }

    fn seams(&self, archive: &[u8], seams: &mut Vec<Range<usize>>) {
        self.get(archive).unwrap().iter().for_each(|item| item.seams(archive, seams));
    }
}

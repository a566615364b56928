//! The catalogue: every kind that both sides can be asked for, in both orders, under the names that docs/REPLAY.md lists.
use crate::dice::Dice;
use crate::original::{BigEndian, LittleEndian, RelativePtr, ZeroArray, ZeroBuilder, ZeroCopyBuilder, ZeroSlice, ZeroStr, ZeroString};
use crate::shapes::{Led, Order, Shape, Sheet};
use std::marker::PhantomData;
use std::ops::Range;

/// A kind in an order, as the original has it.
pub trait Kind: Sync {
    fn name(&self) -> &str;
    fn order(&self) -> u8;
    fn size(&self) -> usize;
    fn align(&self) -> usize;
    fn plain(&self) -> bool;
    fn padded(&self) -> bool;

    /// A number of four bytes as this order lays it.
    fn laid(&self, number: u32) -> [u8; 4];

    /// Adds the sheet of a value.
    fn draw(&self, dice: &mut Dice, sheet: &mut Vec<u8>);
    fn build(&self, builder: &mut ZeroBuilder, sheet: &[u8]) -> usize;
    fn reserve(&self, builder: &mut ZeroBuilder) -> usize;

    /// The bytes stand at the kind's alignment, are as many as its size, and are a value of it.
    fn push(&self, builder: &mut ZeroBuilder, bytes: &[u8]) -> usize;

    fn sits(&self, archive: &[u8], place: usize) -> bool {
        place % self.align() == 0 && place.checked_add(self.size()).is_some_and(|end| end <= archive.len())
    }

    // Of these the archive begins at a page, and a head sits at the place.
    fn shallow(&self, archive: &[u8], place: usize) -> bool;
    fn deep(&self, archive: &[u8], place: usize) -> bool;
    fn step(&self, archive: &[u8], place: usize) -> Led;
    fn read(&self, archive: &[u8], place: usize, sheet: &mut Vec<u8>);
    fn strange_to_look(&self, archive: &[u8], place: usize) -> bool;
    fn strange_to_read(&self, archive: &[u8], place: usize) -> bool;
    fn seams(&self, archive: &[u8], place: usize) -> Vec<Range<usize>>;
}

struct Of<O, T> {
    name: String,
    of: PhantomData<fn(O, T)>,
}

/// The head at a place where it sits.
fn head<T>(archive: &[u8], place: usize) -> &T {
    assert!(place + size_of::<T>() <= archive.len() && (archive.as_ptr() as usize + place) % align_of::<T>() == 0);
    // SAFETY: it lies within the archive and is aligned. That its bytes are a value of the type, the callers see to.
    unsafe { &*archive.as_ptr().add(place).cast::<T>() }
}

impl<O: Order, T: Shape<O>> Kind for Of<O, T> {
    fn name(&self) -> &str {
        &self.name
    }

    fn order(&self) -> u8 {
        O::LETTER
    }

    fn size(&self) -> usize {
        T::SIZE
    }

    fn align(&self) -> usize {
        T::ALIGN
    }

    fn plain(&self) -> bool {
        T::PLAIN
    }

    fn padded(&self) -> bool {
        T::PADDED
    }

    fn laid(&self, number: u32) -> [u8; 4] {
        O::laid(number)
    }

    fn draw(&self, dice: &mut Dice, sheet: &mut Vec<u8>) {
        T::draw(dice, sheet);
    }

    fn build(&self, builder: &mut ZeroBuilder, sheet: &[u8]) -> usize {
        T::value(&mut Sheet::new(sheet)).build(builder)
    }

    fn reserve(&self, builder: &mut ZeroBuilder) -> usize {
        builder.reserve::<T>()
    }

    fn push(&self, builder: &mut ZeroBuilder, bytes: &[u8]) -> usize {
        builder.push(head::<T>(bytes, 0))
    }

    fn shallow(&self, archive: &[u8], place: usize) -> bool {
        head::<T>(archive, place).is_valid(archive)
    }

    fn deep(&self, archive: &[u8], place: usize) -> bool {
        head::<T>(archive, place).is_valid_deep(archive)
    }

    fn step(&self, archive: &[u8], place: usize) -> Led {
        head::<T>(archive, place).step(archive)
    }

    fn read(&self, archive: &[u8], place: usize, sheet: &mut Vec<u8>) {
        head::<T>(archive, place).read(archive, sheet);
    }

    fn strange_to_look(&self, archive: &[u8], place: usize) -> bool {
        !T::PLAIN && (T::strange(archive, place) || T::strange_to_look(archive, place))
    }

    fn strange_to_read(&self, archive: &[u8], place: usize) -> bool {
        !T::PLAIN && (T::strange(archive, place) || T::strange_to_read(archive, place))
    }

    fn seams(&self, archive: &[u8], place: usize) -> Vec<Range<usize>> {
        let mut seams = Vec::new();
        if T::PADDED {
            head::<T>(archive, place).seams(archive, &mut seams);
        }
        seams
    }
}

pub type Kinds = Vec<Box<dyn Kind>>;

/// All of them; a name stands there once for each type of the original that it is (a `2` is a `u16` and an `i16`).
pub fn catalogue() -> Kinds {
    let mut kinds = Kinds::new();
    in_order::<LittleEndian>(&mut kinds);
    in_order::<BigEndian>(&mut kinds);
    kinds
}

fn add<O: Order, T: Shape<O>>(kinds: &mut Kinds) {
    kinds.push(Box::new(Of::<O, T> { name: T::name(), of: PhantomData }));
}

/// The four kinds that hold others, over one.
fn over<O: Order, T: Shape<O>>(kinds: &mut Kinds) {
    add::<O, RelativePtr<T, 0, O>>(kinds);
    add::<O, [T; 2]>(kinds);
    add::<O, ZeroArray<T, 3, 0, O>>(kinds);
    add::<O, ZeroSlice<T, 0, O>>(kinds);
}

fn over_and_alone<O: Order, T: Shape<O>>(kinds: &mut Kinds) {
    add::<O, T>(kinds);
    over::<O, T>(kinds);
}

fn twice_over<O: Order, T: Shape<O>>(kinds: &mut Kinds) {
    over::<O, RelativePtr<T, 0, O>>(kinds);
    over::<O, [T; 2]>(kinds);
    over::<O, ZeroArray<T, 3, 0, O>>(kinds);
    over::<O, ZeroSlice<T, 0, O>>(kinds);
}

/// The type that a name stands for, part by part.
macro_rules! of {
    ($o:ty; p $($rest:tt)+) => { RelativePtr<of!($o; $($rest)+), 0, $o> };
    ($o:ty; r2 $($rest:tt)+) => { [of!($o; $($rest)+); 2] };
    ($o:ty; a3 $($rest:tt)+) => { ZeroArray<of!($o; $($rest)+), 3, 0, $o> };
    ($o:ty; s $($rest:tt)+) => { ZeroSlice<of!($o; $($rest)+), 0, $o> };
    ($o:ty; 1) => { u8 };
    ($o:ty; 2) => { u16 };
    ($o:ty; 8) => { u64 };
    ($o:ty; b) => { bool };
    ($o:ty; c) => { char };
    ($o:ty; t) => { ZeroStr<$o> };
    ($o:ty; i5) => { ZeroString<5, $o> };
}

macro_rules! deep {
    ($o:ty, $kinds:ident: $([$($part:tt)+])+) => {
        $(add::<$o, of!($o; $($part)+)>($kinds);)+
    };
}

fn in_order<O: Order>(kinds: &mut Kinds) {
    over_and_alone::<O, u8>(kinds);
    over_and_alone::<O, u16>(kinds);
    over_and_alone::<O, u32>(kinds);
    over_and_alone::<O, u64>(kinds);
    over_and_alone::<O, bool>(kinds);
    over_and_alone::<O, char>(kinds);
    over_and_alone::<O, ZeroStr<O>>(kinds);
    over_and_alone::<O, ZeroString<2, O>>(kinds);
    over_and_alone::<O, ZeroString<5, O>>(kinds);
    twice_over::<O, u16>(kinds);
    twice_over::<O, ZeroStr<O>>(kinds);
    deep! { O, kinds:
        [s s 8] [p p 8]
        [p p p 1] [s s s 2] [s p s b] [r2 s r2 c] [s a3 r2 8] [s s r2 1] [a3 a3 a3 1] [r2 r2 r2 b]
        [a3 p s t] [p s a3 i5] [p r2 s t] [s p s t]
    }
    // The other types of a number kind.
    over_and_alone::<O, i8>(kinds);
    over_and_alone::<O, i16>(kinds);
    over_and_alone::<O, i32>(kinds);
    over_and_alone::<O, i64>(kinds);
    over_and_alone::<O, f32>(kinds);
    over_and_alone::<O, f64>(kinds);
}

//! All small archives of some kinds.
use crate::difference::{Outcome, Tally};
use crate::kinds::{Kind, Kinds};
use crate::looks::Looker;

/// Bytes of which small words are made.
const FEW: [u8; 6] = [0x00, 0x01, 0x04, 0x05, 0xFC, 0xFF];

fn named<'k>(kinds: &'k Kinds, names: &'k [&str]) -> impl Iterator<Item = &'k dyn Kind> {
    kinds.iter().map(|kind| &**kind).filter(move |kind| names.contains(&kind.name()))
}

/// Every archive of up to two bytes, of the kinds whose head has room there, at every place.
pub fn tiny(tally: &mut Tally, looker: &mut Looker, kinds: &Kinds) -> Outcome {
    for kind in named(kinds, &["1", "2", "b", "r2.1", "r2.b"]) {
        let mut at_every_place = |archive: &[u8]| {
            tally.count("all archives of up to 2 bytes");
            (0..=archive.len()).try_for_each(|place| looker.look(tally, kind, archive, place))
        };
        at_every_place(&[])?;
        for a in 0..=255 {
            at_every_place(&[a])?;
            for b in 0..=255 {
                at_every_place(&[a, b])?;
            }
        }
    }
    Ok(())
}

/// A head of one distance, of every four of few bytes, in archives of several lengths.
pub fn distances(tally: &mut Tally, looker: &mut Looker, kinds: &Kinds) -> Outcome {
    for kind in named(kinds, &["p1", "p2", "p8", "pp1", "a3.1", "a3.2", "pb", "ps2"]) {
        for length in [4, 5, 6, 7, 8, 12, 16] {
            let mut archive = vec![1; length];
            for word in words(&FEW) {
                for at in (0..=length - 4).step_by(4) {
                    archive.fill(1);
                    archive[at..at + 4].copy_from_slice(&word);
                    tally.count("all distances of few bytes");
                    looker.look(tally, kind, &archive, at)?;
                }
            }
        }
    }
    Ok(())
}

/// A head of a length or a count and a distance, both of every four of few bytes, with every tail of few bytes behind.
pub fn lengths(tally: &mut Tally, looker: &mut Looker, kinds: &Kinds) -> Outcome {
    const TAILS: [&[u8]; 9] = [b"", b"A", b"\x80", b"A\xC3", b"\xC3\xA9", b"\xED\xA0", b"AB\xFF", b"\xE2\x82\xAC", b"\xF0\x9F\x9A\xA2"];
    for kind in named(kinds, &["t", "s1", "s2"]) {
        for count in words(&[0x00, 0x01, 0x02, 0xFF]) {
            for distance in words(&[0x00, 0x01, 0x04, 0xFC, 0xFF]) {
                for tail in TAILS {
                    let mut archive = [0; 12];
                    archive[..4].copy_from_slice(&count);
                    archive[4..8].copy_from_slice(&distance);
                    archive[8..8 + tail.len()].copy_from_slice(tail);
                    tally.count("all lengths and distances of few bytes");
                    looker.look(tally, kind, &archive[..8 + tail.len()], 0)?;
                }
            }
        }
    }
    Ok(())
}

/// An inline text of capacity 2, with every two bytes, and lengths at the edges.
pub fn inline(tally: &mut Tally, looker: &mut Looker, kinds: &Kinds) -> Outcome {
    for kind in named(kinds, &["i2."]) {
        for length in [0, 1, 2, 3, 4, 200, 0x7FFF_FFFF, 0x8000_0000, 0xFFFF_FFFF, 0x0100_0000, 0x0200_0000] {
            for a in 0..=255 {
                for b in 0..=255 {
                    let mut archive = [0; 8];
                    archive[..4].copy_from_slice(&kind.laid(length));
                    archive[4..6].copy_from_slice(&[a, b]);
                    tally.count("all inline texts of 2 bytes");
                    looker.look(tally, kind, &archive, 0)?;
                }
            }
        }
    }
    Ok(())
}

/// Every word of four of the bytes.
fn words(bytes: &[u8]) -> impl Iterator<Item = [u8; 4]> + '_ {
    let count = bytes.len();
    (0..count.pow(4)).map(move |n| [0, 1, 2, 3].map(|digit| bytes[n / count.pow(digit) % count]))
}

//! What is text: the port against `core::str::from_utf8`, which the original asks.
use crate::dice::Dice;
use crate::difference::{hex, Difference, Outcome, Tally};
use crate::port;

/// Bytes at which what may come next changes.
const CORNERS: [u8; 26] = [
    0x00, 0x41, 0x7F, 0x80, 0x8F, 0x90, 0x9F, 0xA0, 0xBF, 0xC0, 0xC1, 0xC2, 0xDF, 0xE0, 0xE1, 0xEC, 0xED, 0xEE, 0xEF, 0xF0, 0xF1, 0xF3,
    0xF4, 0xF5, 0xFE, 0xFF,
];

fn judge(tally: &mut Tally, sort: &'static str, bytes: &[u8]) -> Outcome {
    let in_rust = core::str::from_utf8(bytes).is_ok();
    let in_port = tally.truth(sort, port::is_text(bytes));
    if in_rust == in_port {
        return Ok(());
    }
    Err(Difference { lines: vec![format!("is_text {}", hex(bytes))], rust: in_rust.to_string(), port: in_port.to_string() })
}

/// All strings of up to three bytes, and of four where the last two are corners.
pub fn short(tally: &mut Tally) -> Outcome {
    const SHORT: &str = "is_text: all of up to 3 bytes";
    judge(tally, SHORT, &[])?;
    for a in 0..=255 {
        judge(tally, SHORT, &[a])?;
        for b in 0..=255 {
            judge(tally, SHORT, &[a, b])?;
            for c in 0..=255 {
                judge(tally, SHORT, &[a, b, c])?;
            }
            for c in CORNERS {
                for d in CORNERS {
                    judge(tally, "is_text: of 4 bytes", &[a, b, c, d])?;
                }
            }
        }
    }
    Ok(())
}

/// All four bytes that begin with one of four.
pub fn all_of_four(tally: &mut Tally) -> Outcome {
    for a in 0xF0..=0xFF {
        for rest in 0..1u32 << 24 {
            let [b, c, d, _] = rest.to_le_bytes();
            judge(tally, "is_text: all of 4 bytes from F0 on", &[a, b, c, d])?;
        }
    }
    Ok(())
}

/// Long stretches with something among them at every place of a machine word or of a block.
pub fn long(tally: &mut Tally) -> Outcome {
    const AMONG: [&[u8]; 8] =
        [b"", b"\x80", b"\xC3\xA9", b"\xE2\x82\xAC", b"\xF0\x9F\x9A\xA2", b"\xED\xA0\x80", b"\xC3", b"\xF4\x90\x80\x80"];
    let mut bytes = Vec::new();
    for length in 0..140 {
        for at in 0..=length {
            for among in AMONG {
                bytes.clear();
                bytes.resize(at, b'a');
                bytes.extend(among);
                bytes.resize(length + among.len(), b'z');
                judge(tally, "is_text: something among letters", &bytes)?;
            }
        }
    }
    Ok(())
}

/// Random strings that are text but for a little.
pub fn random(tally: &mut Tally, dice: &mut Dice, count: usize) -> Outcome {
    let mut bytes = Vec::new();
    for _ in 0..count {
        bytes.clear();
        for _ in 0..dice.below(40) {
            let last = dice.one_of(&[0x7F, 0x7FF, 0xFFFF, 0x10FFFF]);
            let character = char::from_u32(dice.below(last + 1) as u32).unwrap_or('\u{FFFD}');
            bytes.extend(character.encode_utf8(&mut [0; 4]).as_bytes());
        }
        if !bytes.is_empty() && dice.once_in(2) {
            let at = dice.below(bytes.len());
            bytes[at] = dice.one_of(&CORNERS);
        }
        bytes.truncate(bytes.len().saturating_sub(dice.one_of(&[0, 0, 0, 1])));
        // Also where the bytes do not begin at a machine word.
        let from = dice.below(8).min(bytes.len());
        judge(tally, "is_text: random", &bytes[from..])?;
    }
    Ok(())
}

//! The cases over a number's bytes.

use crate::batch::Cases;
use crate::case::Case;
use crate::dice::Dice;
use crate::number::spell;

/// Groups at the edges of what a group holds, with and without another after them.
const EDGE_GROUPS: [u8; 20] = [0, 1, 2, 3, 15, 16, 60, 61, 62, 63, 64, 126, 127, 128, 129, 130, 191, 192, 254, 255];

/// Numbers: every one of one and two bytes, many of three and four, at many places and with many limits.
pub fn all(cases: &mut dyn Cases, dice: &mut Dice, times: u64) {
    short(cases);
    places(cases);
    longer(cases, dice, 30_000 * times);
    limits(cases, dice, 30_000 * times);
}

/// Every number of up to two bytes, and edge groups in three.
fn short(cases: &mut dyn Cases) {
    let mut add = |bytes: Vec<u8>| cases.add("numbers, up to two bytes", Case::Number { at: 0, bytes });
    add(vec![]);
    for a in 0..=255 {
        add(vec![a]);
        (0..=255).for_each(|b| add(vec![a, b]));
    }
    for a in EDGE_GROUPS {
        for (b, c) in EDGE_GROUPS.iter().flat_map(|b| EDGE_GROUPS.map(|c| (*b, c))) {
            cases.add("numbers, three groups", Case::Number { at: 0, bytes: vec![a, b, c] });
        }
    }
}

/// Numbers at places inside the bytes, at their end and far past it.
fn places(cases: &mut dyn Cases) {
    for at in [0, 1, 2, 3, 4, 5, 6, 100, 1 << 32, 1 << 63, u64::MAX - 2, u64::MAX - 1, u64::MAX] {
        for bytes in [&b""[..], b"\x05", b"\x80\x80", b"\x80\x01\x7f", b"\xff\xff\x7f\xff\xff", b"\xff\xff\xff\xff\xff"] {
            cases.add("numbers, places", Case::Number { at, bytes: bytes.to_vec() });
            for most in [0, 64, u64::MAX] {
                cases.add("numbers, places", Case::UpTo { at, most, bytes: bytes.to_vec() });
            }
        }
    }
}

/// Random groups, often with another to follow, after some other bytes.
fn longer(cases: &mut dyn Cases, dice: &mut Dice, count: u64) {
    for _ in 0..count {
        let before = dice.range(0, 5) as usize;
        let mut bytes = dice.bytes(before);
        for _ in 0..dice.range(1, 5) {
            let group = if dice.one_in(3) { dice.pick(&EDGE_GROUPS) } else { dice.byte() };
            bytes.push(if dice.one_in(2) { group | 0x80 } else { group });
        }
        cases.add("numbers, longer", Case::Number { at: before as u64, bytes });
    }
}

/// Numbers about their most.
fn limits(cases: &mut dyn Cases, dice: &mut Dice, count: u64) {
    for _ in 0..count {
        let before = dice.range(0, 5) as usize;
        let most = dice.pick(&[0, 1, 16, 32, 64, 127, 128, 16_383, 16_384, 1_000_000, 2_097_151, u64::MAX]);
        let near = most.min(2_097_150).saturating_sub(1) + dice.range(0, 2);
        let value = if dice.one_in(2) { near } else { dice.pick(&[0, 1, 127, 128, 2_097_151]) };
        let mut bytes = dice.bytes(before);
        bytes.extend(spell(value));
        if dice.one_in(8) {
            let last = bytes.len() - 1;
            bytes[last] |= 0x80;
        }
        let more = dice.pick(&[0, 0, 1, 3]);
        bytes.extend(dice.bytes(more));
        cases.add("numbers, limits", Case::UpTo { at: before as u64, most, bytes });
    }
}

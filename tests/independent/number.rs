//! The number: groups of seven bits, lowest first, in the shortest form.

use crate::rules::{broken, Rule};

/// The most groups of a number.
const MOST_GROUPS: usize = 3;

/// A number of refusal and its place.
#[derive(Clone, Copy, Debug, PartialEq)]
pub struct Refusal {
    pub number: u64,
    pub place: u64,
}

/// The refusal of this number at this place.
pub fn refuse<A>(number: u64, place: usize) -> Result<A, Refusal> {
    Err(Refusal { number, place: place as u64 })
}

/// A number's value and the place after it.
pub fn number(bytes: &[u8], first: usize) -> Result<(u64, usize), Refusal> {
    let most = if broken(Rule::FourthGroup) { MOST_GROUPS + 1 } else { MOST_GROUPS };
    let rest = bytes.get(first..).unwrap_or(&[]);
    let groups = &rest[..rest.len().min(most)];
    match groups.iter().position(|group| *group < 0x80) {
        None if groups.len() < most && !broken(Rule::FormBeforeEnd) => refuse(2, bytes.len()),
        None => refuse(3, first),
        Some(last) if last > 0 && groups[last] == 0 && !broken(Rule::ZeroLastGroup) => refuse(3, first),
        Some(last) => {
            let value = groups[..=last].iter().rev().fold(0, |v, group| v * 128 + (group & 0x7f) as u64);
            Ok((value, first + last + 1))
        }
    }
}

/// A number from 1 to the most, with the refusals of zero and of more.
pub fn up_to(bytes: &[u8], first: usize, most: u64, zero: u64, over: u64) -> Result<(u64, usize), Refusal> {
    let (value, next) = number(bytes, first)?;
    if value == 0 {
        refuse(if broken(Rule::ZeroIsOver) { over } else { zero }, first)
    } else if value > most || (value == most && broken(Rule::MostRefused)) {
        refuse(over, first)
    } else {
        Ok((value, next))
    }
}

/// A number spelled in its shortest form.
pub fn spell(value: u64) -> Vec<u8> {
    if value < 128 {
        return vec![value as u8];
    }
    let mut bytes = vec![(value % 128) as u8 | 0x80];
    bytes.extend(spell(value / 128));
    bytes
}

//! The texts of the two programs.

use crate::bound::{bounds, holds, Outcome};
use crate::number::Refusal;
use crate::reader::read;
use crate::rules::{broken, Rule};
use crate::sheet::{fixed, Sheet};

/// The lines of a sheet with these labels: each row's, and the verdict.
fn lines(sheet: &Sheet, labels: &[Vec<u8>]) -> Vec<u8> {
    let results = bounds(sheet);
    let mut text = Vec::new();
    for (k, (label, result)) in labels.iter().zip(&results).enumerate() {
        text.extend(format!("{k} ").as_bytes());
        text.extend(label);
        text.extend(match result {
            Outcome::Bound(bound) => format!(" bound {bound}\n").into_bytes(),
            Outcome::NoBound => b" none -\n".to_vec(),
            Outcome::Unreached => b" unreached -\n".to_vec(),
        });
    }
    let holds = if broken(Rule::HoldsBesideNone) { !results.contains(&Outcome::Unreached) } else { holds(&results) };
    text.extend(if holds { &b"HOLDS\n"[..] } else { b"FAILS\n" });
    text
}

/// The verdict on the bytes of a sheet.
pub fn verdict(bytes: &[u8]) -> Vec<u8> {
    match read(bytes) {
        Ok((sheet, parts)) => {
            let labels: Vec<Vec<u8>> = parts.iter().map(|(start, length)| bytes[*start..start + length].to_vec()).collect();
            lines(&sheet, &labels)
        }
        Err(Refusal { number, place }) => {
            format!("NO VERDICT {number} {}\n", place + broken(Rule::PlaceFromOne) as u64).into_bytes()
        }
    }
}

/// What the reference program prints: sheets A to E.
pub fn reference() -> Vec<u8> {
    let first = broken(Rule::LabelsFromOne) as usize;
    let mut text = Vec::new();
    for (letter, sheet) in ('A'..='E').zip(fixed()) {
        let labels: Vec<Vec<u8>> = (0..sheet.rows.len()).map(|k| format!("r{}", k + first).into_bytes()).collect();
        text.extend(format!("{letter}\n").as_bytes());
        text.extend(lines(&sheet, &labels));
    }
    text
}

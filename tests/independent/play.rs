//! What the program prints that plays a scenario on a sheet's box.

use crate::machine::{fresh, slot};
use crate::number::Refusal;
use crate::rules::{broken, Rule};
use crate::{reader, scenario};

/// The most bytes of a sheet that are read.
const MOST_SHEET: usize = 871;

/// The line of a refused file.
fn refused(refusal: Refusal, file: &str) -> String {
    format!("REFUSED {} {} {file}\n", refusal.number, refusal.place)
}

/// The text: one line of a refused file, or a line for each slot and one for the end.
pub fn played(sheet: &[u8], bytes: &[u8]) -> Vec<u8> {
    let text = match reader::read(&sheet[..sheet.len().min(MOST_SHEET)]) {
        Err(refusal) => refused(refusal, "sheet"),
        Ok((sheet, _)) => match scenario::read(&sheet, bytes) {
            Err(refusal) => refused(refusal, "scenario"),
            Ok(slots) => {
                let (mut text, mut state, mut codes) = (String::new(), fresh(&sheet), vec![0; sheet.rows.len()]);
                let mut last = format!("SLOTS {}\n", slots.len());
                for (k, releases) in slots.iter().enumerate() {
                    match slot(&sheet, &state, releases, &mut codes) {
                        Ok(next) => state = next,
                        Err(refusal) => {
                            last = format!("SLOT {k} REFUSED {} {}\n", refusal.number, refusal.place);
                            break;
                        }
                    }
                    let first = if broken(Rule::SlotsFromOne) { k + 1 } else { k };
                    let codes: String = codes.iter().map(|code| format!(" {code}")).collect();
                    text.push_str(&format!("{first}{codes}\n"));
                }
                text + &last
            }
        },
    };
    text.into_bytes()
}

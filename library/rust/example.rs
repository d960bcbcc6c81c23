//! A sheet of two programs on two processors, from its bytes to a run of slots.

mod giachimu;

use giachimu::{green, label, number, number_up_to, verdict, Outcome, Sheet, State};

const SHEET: &[u8] = b"GSH\x01\x02\x02\x04roll\x02\x02\x02\x01\x04trim\x01\x04\x04\x02";

fn show_bytes(what: &str, bytes: &[u8]) {
    let shown: Vec<String> = bytes.iter().map(|byte| format!("{byte:02x}")).collect();
    println!("a {what} of {} bytes: {}", bytes.len(), shown.join(" "));
}

/// A correction from end to end: the separation of row 1, then its label.
fn show_correction() {
    let (mut sheet, labels) = Sheet::read_labelled(SHEET).expect("a legal sheet");
    sheet.rows[1].separation = 200;
    let bytes = sheet.write(&labels).expect("200 is in the range");
    show_bytes("sheet", &bytes);
    let (sheet, mut labels) = Sheet::read_labelled(&bytes).expect("it was written");
    println!("written as it was read, the very bytes: {}", (sheet.write(&labels).as_ref() == Ok(&bytes)) as u8);
    labels[1] = b"heel";
    print!("{}", verdict(&sheet.write(&labels).expect("a plain label")));
    labels[1] = b" eel";
    let refused = sheet.write(&labels).expect_err("a blank is no byte of a label");
    println!("a label with a blank: refusal {} at {}", refused.number, refused.place);
}

fn main() {
    print!("{}", verdict(SHEET));
    println!("green: {}", green(SHEET) as u8);
    print!("{}", verdict(&SHEET[..SHEET.len() - 1]));
    let sheet = Sheet::read(SHEET).expect("a legal sheet");
    for (row, outcome) in sheet.bounds().expect("a legal sheet").into_iter().enumerate() {
        let label = String::from_utf8_lossy(label(SHEET, row).expect("a row of the sheet"));
        match outcome {
            Outcome::Bound(bound) => println!("{label}: bound {bound}"),
            Outcome::NoBound => println!("{label}: none 0"),
            Outcome::Unreached => println!("{label}: unreached 0"),
        }
    }
    let mut state = sheet.fresh().expect("a legal sheet");
    let run = state.run(&sheet, &[1, 2, 0, 0, 1, 0, 0, 0, 1, 2, 0, 1]);
    let refusal = run.refusal.expect("the last slot releases too soon");
    println!("{} slots done, refusal {} at {}", run.done, refusal.number, refusal.place);
    for (slot, codes) in run.codes.chunks(2).enumerate() {
        println!("slot {slot}: {} {}", codes[0] as u8, codes[1] as u8);
    }
    if let Ok(Some(margin)) = state.margin(&sheet, 1) {
        println!("trim has a margin of {margin}");
    }
    println!("row 2: refusal {}", state.margin(&sheet, 2).expect_err("there is no row 2").number);
    let before = state.clone();
    let refused = state.slot(&sheet, &[0, 1]).expect_err("the release is too soon");
    assert!(refused.number == 13 && refused.place == 1 && state == before);
    let codes = state.slot(&sheet, &[0, 0]).expect("no release is too soon");
    println!("one slot more: {} {}", codes[0] as u8, codes[1] as u8);
    let (value, after) = number(SHEET, 4).expect("there is a number");
    println!("the number at 4 is {value}, and the next is at {after}");
    let refused = number_up_to(SHEET, 4, 1).expect_err("it is over the most");
    println!("a most of 1: refusal {} at {}", refused.number, refused.place);
    println!("legal: {}, sheet D: {}", sheet.legal() as u8, (Sheet::fixed(3) == sheet) as u8);
    let (run, _) = State::boxed(&sheet, &[1, 2, 0, 0, 1, 0, 0, 0, 1, 2, 0, 1]);
    let refusal = run.refusal.expect("the last slot releases too soon");
    println!("the box: {} slots done, refusal {} at {}", run.done, refusal.number, refusal.place);
    let scenario = sheet.write_scenario(&[1, 2, 0, 0, 1, 0]).expect("whole slots within the budgets");
    show_bytes("scenario", &scenario);
    let (slots, releases) = sheet.read_scenario(&scenario).expect("it was written");
    let shown: Vec<String> = releases.iter().map(u64::to_string).collect();
    println!("{slots} slots: {}", shown.join(" "));
    let mut damaged = scenario;
    damaged[8] = 7;
    let refused = sheet.read_scenario(&damaged).expect_err("the count is over the budget");
    println!("a slot count of 7: refusal {} at {}", refused.number, refused.place);
    show_correction();
}

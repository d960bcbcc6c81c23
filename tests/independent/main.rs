//! A second program for the sheet, its writer, the bound, the slot machine and the scenario, written from their rules alone: it makes
//! cases, and compares the answers to them with its own.

mod answer;
mod batch;
mod bound;
mod case;
mod dice;
mod hand;
mod judge;
mod machine;
mod make;
mod number;
mod page;
mod play;
mod probe;
mod programs;
mod random;
mod reader;
mod rules;
mod scenario;
mod sheet;
mod table;
mod text;
mod writer;

use make::Half;
use probe::Choice;
use std::path::Path;
use std::process::ExitCode;
use std::sync::atomic::{AtomicBool, Ordering::Relaxed};

/// The seed where none is given.
const SEED: u64 = 20_240_229;

const USAGE: &str = "check STARTER PROBE FOLDER [--seed N] [--times K] [--break RULE], rules, or hand CASES ANSWERS
  STARTER starts a program, PROBE answers cases, FOLDER has the programs verdict, reference and play, each as NAME/out/NAME;
  --times makes so many times the random cases;
  --break breaks one rule of this program and asks only what has to show it; rules prints their names;
  hand writes the cases worked by hand and their answers, in the bytes of the wire
status: 0 where nothing differs, 1 at a difference, another where it cannot be told";

/// What the flags choose; nothing where one is not known or has no value.
fn choice(flags: &[String]) -> Option<Choice> {
    let mut choice = Choice { only: None, seed: SEED, times: 1 };
    for flag in flags.chunks(2) {
        let [name, value] = flag else { return None };
        match name.as_str() {
            "--seed" => choice.seed = value.parse().ok()?,
            "--times" => choice.times = value.parse().ok()?,
            "--break" => choice.only = Some(rules::break_rule(value)?),
            _ => return None,
        }
    }
    Some(choice)
}

/// Everything compared; whether nothing differs.
fn check(starter: &Path, program: &Path, folder: &Path, choice: Choice) -> bool {
    if choice.only.is_none() {
        hand::check();
    }
    let differs = AtomicBool::new(false);
    let [first, mut second] = std::thread::scope(|scope| {
        let differs = &differs;
        let asked =
            [Half::Sheets, Half::Machine].map(|half| scope.spawn(move || probe::check(starter, program, choice, half, differs)));
        asked.map(|half| half.join().expect("a half of the comparison ends"))
    });
    second.table.join(first.table);
    programs::check(starter, folder, choice, &mut second.table, &differs);
    let same = !differs.load(Relaxed);
    if same {
        second.watch.report();
        second.table.print();
    }
    same
}

fn main() -> ExitCode {
    let arguments: Vec<String> = std::env::args().skip(1).collect();
    match &arguments[..] {
        [word] if word == "rules" => {
            rules::RULES.iter().for_each(|(_, _, name)| println!("{name}"));
            return ExitCode::SUCCESS;
        }
        [word, cases, answers] if word == "hand" => {
            let mut kept = batch::Kept::default();
            make::worked::all(&mut kept, &mut dice::Dice(SEED), 1);
            std::fs::write(cases, kept.cases).expect("the cases can be written");
            std::fs::write(answers, kept.answers).expect("the answers can be written");
            return ExitCode::SUCCESS;
        }
        [word, starter, program, folder, flags @ ..] if word == "check" => {
            if let Some(choice) = choice(flags) {
                return ExitCode::from(!check(Path::new(starter), Path::new(program), Path::new(folder), choice) as u8);
            }
        }
        _ => {}
    }
    eprintln!("{USAGE}");
    ExitCode::from(2)
}

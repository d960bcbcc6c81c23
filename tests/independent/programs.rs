//! The built programs: the verdict program on some hundreds of inputs, two at a time, the reference program, and the program that
//! plays a scenario, on some hundreds of pairs of files.

use crate::case::Kind;
use crate::dice::Dice;
use crate::make::{scenarios, texts};
use crate::play::played;
use crate::probe::{hex, show, start, Choice};
use crate::table::Table;
use crate::text::{reference, verdict};
use std::io::Write;
use std::path::{Path, PathBuf};
use std::process::Command;
use std::sync::atomic::{AtomicBool, Ordering::Relaxed};

/// The most bytes that the verdict program reads.
const MOST_INPUT: usize = 871;

/// Where a program of this name stands in the folder of crates.
fn built(folder: &Path, name: &str) -> PathBuf {
    folder.join(name).join("out").join(name)
}

/// What a program prints on this input.
fn printed(starter: &Path, program: &Path, input: &[u8]) -> Vec<u8> {
    let mut child = start(starter, program);
    // A program that reads only so much may be gone before the rest is written.
    let _ = child.stdin.take().expect("it is piped").write_all(input);
    child.wait_with_output().expect("the program ends").stdout
}

/// Holds what a program prints on each input against what is expected, up to a difference; of two that look for one, the first
/// to find it shows it.
fn compare(starter: &Path, program: &Path, inputs: &[Vec<u8>], expected: fn(&[u8]) -> Vec<u8>, differs: &AtomicBool) {
    for input in inputs {
        let (expected, given) = (expected(input), printed(starter, program, input));
        if expected != given && !differs.swap(true, Relaxed) {
            println!("a difference in what {} prints", program.display());
            show(input, &expected, &given);
        }
        if differs.load(Relaxed) {
            return;
        }
    }
}

/// What the verdict program prints.
fn verdict_printed(input: &[u8]) -> Vec<u8> {
    verdict(&input[..input.len().min(MOST_INPUT)])
}

/// Plays each pair of files, up to a difference; they stand in a folder of their own.
fn play(starter: &Path, program: &Path, pairs: &[(Vec<u8>, Vec<u8>)], room: &Path, differs: &AtomicBool) {
    std::fs::create_dir_all(room).expect("a folder can be made");
    let (sheet_file, scenario_file) = (room.join("sheet"), room.join("scenario"));
    for (sheet, scenario) in pairs {
        std::fs::write(&sheet_file, sheet).expect("a file can be written");
        std::fs::write(&scenario_file, scenario).expect("a file can be written");
        let output = Command::new(starter).args([program, &sheet_file, &scenario_file]).output().expect("the program ends");
        let expected = played(sheet, scenario);
        if (output.stdout != expected || !output.stderr.is_empty()) && !differs.swap(true, Relaxed) {
            println!("a difference in what {} prints", program.display());
            println!("  sheet: {}", hex(sheet));
            show(scenario, &expected, &output.stdout);
            println!("  on standard error: {}", String::from_utf8_lossy(&output.stderr));
        }
        if differs.load(Relaxed) {
            break;
        }
    }
    std::fs::remove_dir_all(room).expect("the folder can be removed");
}

/// The programs compared, as far as they are asked for; `differs` becomes true where they do.
pub fn check(starter: &Path, folder: &Path, choice: Choice, table: &mut Table, differs: &AtomicBool) {
    let wants = |kind: Kind| choice.only.is_none_or(|only| only == kind) && !differs.load(Relaxed);
    if wants(Kind::VerdictProgram) {
        let inputs = texts::inputs(&mut Dice(choice.seed), 290 * choice.times);
        let program = built(folder, "verdict");
        let (first, second) = inputs.split_at(inputs.len() / 2);
        std::thread::scope(|scope| {
            for half in [first, second] {
                scope.spawn(|| compare(starter, &program, half, verdict_printed, differs));
            }
        });
        table.count_runs("the verdict program", inputs.len() as u64);
    }
    if wants(Kind::ReferenceProgram) {
        compare(starter, &built(folder, "reference"), &[vec![]], |_| reference(), differs);
        table.count_runs("the reference program", 1);
    }
    if wants(Kind::PlayProgram) {
        let pairs = scenarios::pairs(&mut Dice(choice.seed), 260 * choice.times);
        let program = built(folder, "play");
        let room = std::env::temp_dir().join(format!("giachimu-{}", std::process::id()));
        let (first, second) = pairs.split_at(pairs.len() / 2);
        let (one, two) = (room.join("one"), room.join("two"));
        std::thread::scope(|scope| {
            for (half, room) in [(first, &one), (second, &two)] {
                scope.spawn(|| play(starter, &program, half, room, differs));
            }
        });
        std::fs::remove_dir_all(&room).expect("the folder can be removed");
        table.count_runs("the program that plays a scenario", pairs.len() as u64);
    }
}

//! The comparison: two probes are asked a half of the cases each; a thread writes them, and each answer is compared as it comes.

use crate::batch::{Batch, Item};
use crate::case::Kind;
use crate::judge::Watch;
use crate::make::{self, Half};
use crate::table::Table;
use std::io::{BufReader, ErrorKind, Read};
use std::path::Path;
use std::process::{Child, Command, Stdio};
use std::sync::atomic::{AtomicBool, Ordering::Relaxed};
use std::sync::mpsc::{sync_channel, Receiver};

/// How many writes may wait to be compared.
const WAITING: usize = 64;

/// Which cases are made.
#[derive(Clone, Copy)]
pub struct Choice {
    pub only: Option<Kind>,
    pub seed: u64,
    pub times: u64,
}

/// The next answer, or nothing where the answers end.
fn answer(from: &mut impl Read) -> std::io::Result<Option<Vec<u8>>> {
    let mut length = [0; 2];
    match from.read_exact(&mut length) {
        Err(error) if error.kind() == ErrorKind::UnexpectedEof => return Ok(None),
        other => other?,
    }
    let mut bytes = vec![0; u16::from_le_bytes(length) as usize];
    from.read_exact(&mut bytes)?;
    Ok(Some(bytes))
}

/// Bytes in hexadecimal.
pub fn hex(bytes: &[u8]) -> String {
    bytes.iter().map(|byte| format!("{byte:02x}")).collect::<Vec<String>>().join(" ")
}

/// Shows an input, and the expected and the given answer from the first byte that differs.
pub fn show(input: &[u8], expected: &[u8], given: &[u8]) {
    let from = expected.iter().zip(given).take_while(|(a, b)| a == b).count();
    println!("  input: {}", hex(input));
    println!("  expected, from byte {from} of {}: {}", expected.len(), hex(&expected[from..]));
    println!("  given, from byte {from} of {}: {}", given.len(), hex(&given[from..]));
}

/// What is wrong with an answer, where anything is: it differs, or a job that it tells of is over its bound.
fn fault(item: &Item, given: Option<&[u8]>, expected: &[u8], watch: &mut Watch) -> Option<String> {
    match given {
        None => Some(": the answers end here".to_string()),
        Some(given) if given != expected => Some(String::new()),
        Some(given) => {
            let fault = item.bounds.as_ref().and_then(|bounds| watch.judge(&item.case, bounds, given));
            fault.map(|fault| format!(": {fault}"))
        }
    }
}

/// Holds every answer against what is expected, up to a difference in either half; the first one is shown.
fn compare(queue: Receiver<Vec<Item>>, from: &mut impl Read, seen: &mut Seen, differs: &AtomicBool) {
    for item in queue.into_iter().flatten() {
        let given = answer(from).unwrap_or(None);
        let expected = item.case.expected();
        if let Some(fault) = fault(&item, given.as_deref(), &expected, &mut seen.watch) {
            if !differs.swap(true, Relaxed) {
                let kind = item.case.kind();
                println!("a difference in kind {} ({kind:?}), {}{fault}", kind as u64, item.group);
                show(&item.case.spelled(), &expected, &given.unwrap_or_default());
            }
        }
        if differs.load(Relaxed) {
            return;
        }
        seen.table.count(item.group, &item.case, &expected);
    }
    if !matches!(from.read(&mut [0]), Ok(0)) && !differs.swap(true, Relaxed) {
        println!("a difference: bytes after the last answer");
    }
}

/// Starts a program of the folder by the starter.
pub fn start(starter: &Path, program: &Path) -> Child {
    let mut command = Command::new(starter);
    let command = command.arg(program).stdin(Stdio::piped()).stdout(Stdio::piped());
    command.spawn().unwrap_or_else(|error| panic!("{} does not start: {error}", starter.display()))
}

/// What was compared in a half of the cases, and what was seen of its jobs.
#[derive(Default)]
pub struct Seen {
    pub table: Table,
    pub watch: Watch,
}

/// One half of the comparison, with a probe of its own; `differs` becomes true where anything does.
pub fn check(starter: &Path, program: &Path, choice: Choice, half: Half, differs: &AtomicBool) -> Seen {
    let mut seen = Seen::default();
    if !make::any(choice.only, half) {
        return seen;
    }
    let mut child = start(starter, program);
    let (stdin, stdout) = (child.stdin.take().expect("it is piped"), child.stdout.take().expect("it is piped"));
    let (sender, queue) = sync_channel(WAITING);
    let writer = std::thread::spawn(move || {
        let mut batch = Batch::new(choice.only, stdin, sender);
        make::all(&mut batch, half, choice.seed, choice.times);
        batch.flush();
    });
    compare(queue, &mut BufReader::with_capacity(1 << 16, stdout), &mut seen, differs);
    if differs.load(Relaxed) {
        let _ = child.kill();
        let _ = child.wait();
        return seen;
    }
    writer.join().expect("the writer ends");
    let status = child.wait().expect("the probe ends");
    if !status.success() && !differs.swap(true, Relaxed) {
        println!("a difference: the probe ends with {status}");
    }
    seen
}

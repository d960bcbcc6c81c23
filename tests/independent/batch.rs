//! The batch on its way to the probe: cases are written as they are made, and handed on to be compared in the same order.

use crate::case::{Case, Kind};
use std::io::Write;
use std::process::ChildStdin;
use std::sync::mpsc::SyncSender;

/// A case, the group that it belongs to, and the bounds that its jobs are held to.
pub struct Item {
    pub group: &'static str,
    pub case: Case,
    pub bounds: Option<Vec<u64>>,
}

/// How many cases are written at once.
const CHUNK: usize = 256;

/// The two ways out of the batch, and what is not yet written.
pub struct Batch {
    only: Option<Kind>,
    probe: ChildStdin,
    queue: SyncSender<Vec<Item>>,
    bytes: Vec<u8>,
    items: Vec<Item>,
    open: bool,
}

/// Where cases are added.
pub trait Cases {
    /// Whether cases of one of these kinds are wanted.
    fn wants(&self, kinds: &[Kind]) -> bool;

    /// One more case, where its kind is wanted.
    fn item(&mut self, item: Item);

    /// One more case whose answer is only compared.
    fn add(&mut self, group: &'static str, case: Case) {
        self.item(Item { group, case, bounds: None });
    }
}

/// Puts a message behind its length, in two bytes, lowest first.
fn frame(bytes: &mut Vec<u8>, message: &[u8]) {
    let length = u16::try_from(message.len()).expect("a message is short");
    bytes.extend(length.to_le_bytes());
    bytes.extend(message);
}

/// Cases and the answers expected of them, kept in the bytes of the wire.
#[derive(Default)]
pub struct Kept {
    pub cases: Vec<u8>,
    pub answers: Vec<u8>,
}

impl Cases for Kept {
    fn wants(&self, _: &[Kind]) -> bool {
        true
    }

    fn item(&mut self, item: Item) {
        frame(&mut self.cases, &item.case.spelled());
        frame(&mut self.answers, &item.case.expected());
    }
}

impl Batch {
    /// A batch of one kind of case, or of all.
    pub fn new(only: Option<Kind>, probe: ChildStdin, queue: SyncSender<Vec<Item>>) -> Batch {
        Batch { only, probe, queue, bytes: Vec::new(), items: Vec::new(), open: true }
    }

    /// Hands on the cases that wait, then writes them, so that answers are read while cases are written; nothing more once
    /// the probe or the comparison has stopped.
    pub fn flush(&mut self) {
        self.open = self.open && self.queue.send(std::mem::take(&mut self.items)).is_ok();
        self.open = self.open && self.probe.write_all(&self.bytes).is_ok();
        self.bytes.clear();
    }
}

impl Cases for Batch {
    fn wants(&self, kinds: &[Kind]) -> bool {
        self.open && self.only.is_none_or(|kind| kinds.contains(&kind))
    }

    fn item(&mut self, item: Item) {
        if !self.wants(&[item.case.kind()]) {
            return;
        }
        frame(&mut self.bytes, &item.case.spelled());
        self.items.push(item);
        if self.items.len() == CHUNK {
            self.flush();
        }
    }
}

//! The answer that is expected of a case.

use crate::bound::{bounds, holds, Outcome};
use crate::case::{Case, Draft, Room, Step};
use crate::machine::{fresh, handed, listed, margin, run, slot, Record};
use crate::number::{number, refuse, up_to, Refusal};
use crate::page::Page;
use crate::reader::{label, read};
use crate::rules::{broken, Rule};
use crate::scenario;
use crate::sheet::{fixed, Sheet};
use crate::text::verdict;
use crate::writer::{labels, write};

/// What every number that is lent for an answer holds before the call.
const BEFORE: u64 = 7;

/// The refusals of zero and of more that a number up to a most is asked with.
const ZERO: u64 = 7;
const OVER: u64 = 8;

/// Fills a lent list with numbers and zeros after them, or 15 where it is too short and stays.
fn fill(list: &mut [u64], numbers: &[u64]) -> Result<(), Refusal> {
    if list.len() < numbers.len() {
        return refuse(15, 0);
    }
    let (front, rest) = list.split_at_mut(numbers.len());
    front.copy_from_slice(numbers);
    if !broken(Rule::RestOfListKept) {
        rest.fill(0);
    }
    Ok(())
}

impl Case {
    /// The answer that is expected.
    pub fn expected(&self) -> Vec<u8> {
        let page = match self {
            Case::Number { at, bytes } => found(number(bytes, *at as usize)),
            Case::UpTo { at, most, bytes } => found(up_to(bytes, *at as usize, *most, ZERO, OVER)),
            Case::Read { list, bytes } => filled(list, read(bytes).map(|(sheet, _)| sheet.list())),
            Case::Label { row, bytes } => labelled(bytes, *row),
            Case::Bounds { sheet, list } => bounded(sheet, list),
            Case::Fresh { sheet, list } => filled(list, Sheet::handed(sheet).map(|sheet| listed(&fresh(&sheet)))),
            Case::Slot(step) => slotted(step),
            Case::Run(step) => ran(step),
            Case::Margin { sheet, state, row } => margins(sheet, state, *row),
            Case::Verdict { text, bytes } => told(text, &verdict(bytes)),
            Case::Green { bytes } => {
                let green = read(bytes).map_or(broken(Rule::RefusedIsGreen), |(sheet, _)| holds(&bounds(&sheet)));
                Page::default().word(green as u64)
            }
            Case::Sweep { bytes } => swept(bytes),
            Case::Legal { sheet } => Page::default().word(Sheet::handed(sheet).is_ok() as u64),
            Case::BoxRun(step) => box_ran(step),
            Case::Fixed { number, list } => {
                let sheet = fixed().get(usize::try_from(*number).unwrap_or(usize::MAX)).map(Sheet::list);
                filled(list, Ok(sheet.unwrap_or(vec![0, 0])))
            }
            Case::ReadScenario { sheet, list, bytes } => scenario_read(sheet, list, bytes),
            Case::WriteScenario { sheet, releases, buffer } => scenario_written(sheet, releases, buffer),
            Case::ScenarioSweep { sheet, bytes } => scenario_swept(sheet, bytes),
            Case::Labels { list, bytes } => labels_listed(list, bytes),
            Case::Write(draft) => sheet_written(draft),
        };
        page.0
    }
}

/// A number's value and the place after it, or its refusal.
fn found(answer: Result<(u64, usize), Refusal>) -> Page {
    let (value, next) = answer.unwrap_or((BEFORE, BEFORE as usize));
    Page::default().refusal(answer.err()).words(&[value, next as u64])
}

/// A lent list after a call that fills it.
fn filled(list: &[u64], numbers: Result<Vec<u64>, Refusal>) -> Page {
    let mut list = list.to_vec();
    let refusal = numbers.and_then(|numbers| fill(&mut list, &numbers)).err();
    Page::default().refusal(refusal).words(&list)
}

/// Where a label begins, its length and its bytes.
fn labelled(bytes: &[u8], row: u64) -> Page {
    let part = label(bytes, row);
    let page = Page::default().refusal(part.err());
    match part {
        Ok((start, long)) => page.words(&[start as u64, long as u64]).bytes(&bytes[start..start + long]),
        Err(_) => page.words(&[BEFORE, BEFORE]),
    }
}

/// Whether the sheet holds, and each row's word and bound.
fn bounded(sheet: &[u64], list: &[u64]) -> Page {
    let (mut list, mut verdict) = (list.to_vec(), BEFORE);
    let result = |outcome: &Outcome| match outcome {
        Outcome::Unreached => [0, 0],
        Outcome::Bound(bound) => [1, *bound],
        Outcome::NoBound => [2, 0],
    };
    let refusal = Sheet::handed(sheet).and_then(|sheet| {
        let results = bounds(&sheet);
        fill(&mut list, &results.iter().flat_map(result).collect::<Vec<u64>>())?;
        verdict = holds(&results) as u64;
        Ok(())
    });
    Page::default().refusal(refusal.err()).word(verdict).words(&list)
}

/// The sheet and the state that two lists hand over: 10, then 16.
fn given(sheet: &[u64], state: &[u64]) -> Result<(Sheet, Vec<Record>), Refusal> {
    let sheet = Sheet::handed(sheet)?;
    let records = handed(&sheet, state)?;
    Ok((sheet, records))
}

/// The state's list and the bytes after one slot.
fn slotted(step: &Step) -> Page {
    let (mut state, mut codes) = (step.state.clone(), step.codes.clone());
    let next = given(&step.sheet, &step.state).and_then(|(sheet, records)| slot(&sheet, &records, &step.releases, codes.lent()));
    let refusal = next.and_then(|next| fill(&mut state, &listed(&next))).err();
    Page::default().refusal(refusal).words(&state).bytes(&codes.bytes)
}

/// The slots done, and the state's list and the bytes after them.
fn ran(step: &Step) -> Page {
    let (mut state, mut codes) = (step.state.clone(), step.codes.clone());
    let (done, refusal) = match given(&step.sheet, &step.state) {
        Ok((sheet, records)) => {
            let ran = run(&sheet, &records, &step.releases, codes.lent());
            let short = fill(&mut state, &listed(&ran.state)).err();
            (ran.done, ran.refusal.or(short))
        }
        Err(refusal) => (0, Some(refusal)),
    };
    Page::default().refusal(refusal).word(done).words(&state).bytes(&codes.bytes)
}

/// A run from the fresh state, where there is room for it: the slots done, and the list with the state after them and the bytes.
fn box_ran(step: &Step) -> Page {
    let (mut state, mut codes) = (step.state.clone(), step.codes.clone());
    let begun = Sheet::handed(&step.sheet).and_then(|sheet| {
        let first = fresh(&sheet);
        fill(&mut state, &listed(&first))?;
        Ok((sheet, first))
    });
    let (done, refusal) = match begun {
        Ok((sheet, mut first)) => {
            if broken(Rule::BoxNotReady) {
                first.iter_mut().for_each(|record| record.since = 1);
            }
            let ran = run(&sheet, &first, &step.releases, codes.lent());
            let short = fill(&mut state, &listed(&ran.state)).err();
            (ran.done, ran.refusal.or(short))
        }
        Err(refusal) => (0, Some(refusal)),
    };
    Page::default().refusal(refusal).word(done).words(&state).bytes(&codes.bytes)
}

/// Whether the row has a job, and its margin.
fn margins(sheet: &[u64], state: &[u64], row: u64) -> Page {
    let answer = given(sheet, state).and_then(|(sheet, records)| margin(&sheet, &records, row));
    let page = Page::default().refusal(answer.err());
    match answer {
        Ok(Some(margin)) => page.words(&[1, margin as u64]),
        Ok(None) => page.words(&[0, BEFORE]),
        Err(_) => page.words(&[BEFORE, BEFORE]),
    }
}

/// A text in its buffer, or 15 where it is longer.
fn told(room: &Room, text: &[u8]) -> Page {
    let mut room = room.clone();
    if room.long < text.len() {
        return Page::default().refusal(refuse::<()>(15, 0).err()).word(BEFORE).bytes(&room.bytes);
    }
    room.lent()[..text.len()].copy_from_slice(text);
    Page::default().refusal(None).word(text.len() as u64).bytes(&room.bytes)
}

/// The refusal of the bytes followed by each byte there is, in two bytes.
fn swept(bytes: &[u8]) -> Page {
    let mut longer = bytes.to_vec();
    longer.push(0);
    let mut page = Page::default();
    for last in 0..=255 {
        *longer.last_mut().expect("a byte was added") = last;
        let refusal = read(&longer).err().unwrap_or(Refusal { number: 0, place: 0 });
        page = page.bytes(&[refusal.number as u8, refusal.place as u8]);
    }
    page
}

/// How many slots a scenario has, and the list with their entries at its front; 15 where it is too short.
fn slots_in(sheet: &[u64], list: &mut [u64], bytes: &[u8]) -> Result<u64, Refusal> {
    let sheet = Sheet::handed(sheet)?;
    if broken(Rule::RoomFirst) && list.is_empty() {
        return refuse(15, 0);
    }
    let slots = scenario::read(&sheet, bytes)?;
    let entries = slots.concat();
    if list.len() < entries.len() {
        return refuse(15, 0);
    }
    let (front, rest) = list.split_at_mut(entries.len());
    front.copy_from_slice(&entries);
    if broken(Rule::PastSlotsCleared) {
        rest.fill(0);
    }
    Ok(slots.len() as u64)
}

/// The slots of a scenario, and the list.
fn scenario_read(sheet: &[u64], list: &[u64], bytes: &[u8]) -> Page {
    let mut list = list.to_vec();
    let slots = slots_in(sheet, &mut list, bytes);
    Page::default().refusal(slots.err()).word(slots.unwrap_or(BEFORE)).words(&list)
}

/// The bytes of a release list in a buffer, or 15 where they are more.
fn scenario_written(sheet: &[u64], releases: &[u64], buffer: &Room) -> Page {
    match Sheet::handed(sheet).and_then(|sheet| scenario::write(&sheet, releases)) {
        Ok(bytes) => told(buffer, &bytes),
        Err(refusal) => Page::default().refusal(Some(refusal)).word(BEFORE).bytes(&buffer.bytes),
    }
}

/// Of the bytes followed by each byte there is: the refusal, the slots, and the entries folded into a byte.
fn scenario_swept(sheet: &[u64], bytes: &[u8]) -> Page {
    let mut longer = bytes.to_vec();
    longer.push(0);
    let mut page = Page::default();
    for last in 0..=255 {
        *longer.last_mut().expect("a byte was added") = last;
        let mut list = [BEFORE; 8];
        let slots = slots_in(sheet, &mut list, &longer);
        let refusal = slots.err().unwrap_or(Refusal { number: 0, place: 0 });
        let fold = list.iter().fold(0u8, |sum, entry| sum.wrapping_mul(31).wrapping_add(*entry as u8));
        page = page.bytes(&[refusal.number as u8, refusal.place as u8, slots.unwrap_or(BEFORE) as u8, fold]);
    }
    page
}

/// Where every label of a sheet's bytes lies, in the list.
fn labels_listed(list: &[u64], bytes: &[u8]) -> Page {
    if broken(Rule::LabelsRoomFirst) && list.is_empty() {
        return filled(list, refuse(15, 0));
    }
    filled(list, labels(bytes))
}

/// How many bytes a sheet has, everything that it was written from, and the bytes around the buffer and in it.
fn sheet_written(draft: &Draft) -> Page {
    let Draft { sheet, labels, bytes, buffer } = draft;
    let mut buffer = buffer.clone();
    let length = write(sheet, bytes.part(), labels, buffer.lent());
    let page = Page::default().refusal(length.err()).word(length.unwrap_or(BEFORE));
    page.words(sheet).words(labels).bytes(&bytes.bytes).bytes(&buffer.bytes)
}

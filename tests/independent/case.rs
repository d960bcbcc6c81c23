//! One case: what is asked, and how the program under test reads it.

use crate::page::Page;

/// What is asked: a kind of case as the wire numbers it, or a built program.
#[derive(Clone, Copy, Debug, PartialEq)]
pub enum Kind {
    Number = 1,
    UpTo,
    Read,
    Label,
    Bounds,
    Fresh,
    Slot,
    Run,
    Margin,
    Verdict,
    Green,
    Sweep,
    Legal,
    BoxRun,
    Fixed,
    ReadScenario,
    WriteScenario,
    ScenarioSweep,
    Labels,
    Write,
    VerdictProgram,
    ReferenceProgram,
    PlayProgram,
}

/// The kinds of the wire.
pub const EVERY_KIND: [Kind; 20] = [
    Kind::Number,
    Kind::UpTo,
    Kind::Read,
    Kind::Label,
    Kind::Bounds,
    Kind::Fresh,
    Kind::Slot,
    Kind::Run,
    Kind::Margin,
    Kind::Verdict,
    Kind::Green,
    Kind::Sweep,
    Kind::Legal,
    Kind::BoxRun,
    Kind::Fixed,
    Kind::ReadScenario,
    Kind::WriteScenario,
    Kind::ScenarioSweep,
    Kind::Labels,
    Kind::Write,
];

/// A buffer lent out of the middle of some bytes, so that those before and after it are guards.
#[derive(Clone, Debug)]
pub struct Room {
    pub before: usize,
    pub long: usize,
    pub bytes: Vec<u8>,
}

impl Room {
    /// The part that is lent.
    pub fn lent(&mut self) -> &mut [u8] {
        &mut self.bytes[self.before..][..self.long]
    }

    /// The same part, to be read only.
    pub fn part(&self) -> &[u8] {
        &self.bytes[self.before..][..self.long]
    }
}

/// What a slot or a run is asked with; of the box's own loop the state is only a list that is lent.
#[derive(Clone, Debug)]
pub struct Step {
    pub sheet: Vec<u64>,
    pub state: Vec<u64>,
    pub releases: Vec<u64>,
    pub codes: Room,
}

/// What a sheet is written from and into: its list, of each row where its label starts and how long it is, the bytes that the
/// labels lie in, and a buffer.
#[derive(Clone, Debug)]
pub struct Draft {
    pub sheet: Vec<u64>,
    pub labels: Vec<u64>,
    pub bytes: Room,
    pub buffer: Room,
}

/// A question to the program under test. A sheet and a state are lists of plain numbers, `list` is one that is lent.
#[derive(Clone, Debug)]
pub enum Case {
    Number { at: u64, bytes: Vec<u8> },
    UpTo { at: u64, most: u64, bytes: Vec<u8> },
    Read { list: Vec<u64>, bytes: Vec<u8> },
    Label { row: u64, bytes: Vec<u8> },
    Bounds { sheet: Vec<u64>, list: Vec<u64> },
    Fresh { sheet: Vec<u64>, list: Vec<u64> },
    Slot(Step),
    Run(Step),
    Margin { sheet: Vec<u64>, state: Vec<u64>, row: u64 },
    Verdict { text: Room, bytes: Vec<u8> },
    Green { bytes: Vec<u8> },
    Sweep { bytes: Vec<u8> },
    Legal { sheet: Vec<u64> },
    BoxRun(Step),
    Fixed { number: u64, list: Vec<u64> },
    ReadScenario { sheet: Vec<u64>, list: Vec<u64>, bytes: Vec<u8> },
    WriteScenario { sheet: Vec<u64>, releases: Vec<u64>, buffer: Room },
    ScenarioSweep { sheet: Vec<u64>, bytes: Vec<u8> },
    Labels { list: Vec<u64>, bytes: Vec<u8> },
    Write(Draft),
}

impl Page {
    fn room(self, room: &Room) -> Page {
        self.words(&[room.before as u64, room.long as u64])
    }

    fn counted(self, room: &Room) -> Page {
        self.room(room).word(room.bytes.len() as u64).bytes(&room.bytes)
    }

    fn step(self, step: &Step) -> Page {
        self.list(&step.sheet).list(&step.state).list(&step.releases).room(&step.codes).bytes(&step.codes.bytes)
    }
}

impl Case {
    /// The case's kind.
    pub fn kind(&self) -> Kind {
        match self {
            Case::Number { .. } => Kind::Number,
            Case::UpTo { .. } => Kind::UpTo,
            Case::Read { .. } => Kind::Read,
            Case::Label { .. } => Kind::Label,
            Case::Bounds { .. } => Kind::Bounds,
            Case::Fresh { .. } => Kind::Fresh,
            Case::Slot(_) => Kind::Slot,
            Case::Run(_) => Kind::Run,
            Case::Margin { .. } => Kind::Margin,
            Case::Verdict { .. } => Kind::Verdict,
            Case::Green { .. } => Kind::Green,
            Case::Sweep { .. } => Kind::Sweep,
            Case::Legal { .. } => Kind::Legal,
            Case::BoxRun(_) => Kind::BoxRun,
            Case::Fixed { .. } => Kind::Fixed,
            Case::ReadScenario { .. } => Kind::ReadScenario,
            Case::WriteScenario { .. } => Kind::WriteScenario,
            Case::ScenarioSweep { .. } => Kind::ScenarioSweep,
            Case::Labels { .. } => Kind::Labels,
            Case::Write(_) => Kind::Write,
        }
    }

    /// The case as the program under test reads it.
    pub fn spelled(&self) -> Vec<u8> {
        let page = Page::default().word(self.kind() as u64);
        let page = match self {
            Case::Number { at, bytes } => page.word(*at).bytes(bytes),
            Case::UpTo { at, most, bytes } => page.words(&[*at, *most]).bytes(bytes),
            Case::Read { list, bytes } | Case::Labels { list, bytes } => page.list(list).bytes(bytes),
            Case::Label { row, bytes } => page.word(*row).bytes(bytes),
            Case::Bounds { sheet, list } | Case::Fresh { sheet, list } => page.list(sheet).list(list),
            Case::Slot(step) | Case::Run(step) | Case::BoxRun(step) => page.step(step),
            Case::Margin { sheet, state, row } => page.list(sheet).list(state).word(*row),
            Case::Verdict { text, bytes } => page.counted(text).bytes(bytes),
            Case::Green { bytes } | Case::Sweep { bytes } => page.bytes(bytes),
            Case::Legal { sheet } => page.list(sheet),
            Case::Fixed { number, list } => page.word(*number).list(list),
            Case::ReadScenario { sheet, list, bytes } => page.list(sheet).list(list).bytes(bytes),
            Case::WriteScenario { sheet, releases, buffer } => page.list(sheet).list(releases).room(buffer).bytes(&buffer.bytes),
            Case::ScenarioSweep { sheet, bytes } => page.list(sheet).bytes(bytes),
            Case::Write(Draft { sheet, labels, bytes, buffer }) => {
                page.list(sheet).list(labels).counted(bytes).room(buffer).bytes(&buffer.bytes)
            }
        };
        page.0
    }
}

//! Bytes in the making, as the wire has them: numbers of eight bytes, lowest first, and plain bytes.

use crate::number::Refusal;

/// The bytes so far.
#[derive(Default)]
pub struct Page(pub Vec<u8>);

impl Page {
    /// One number.
    pub fn word(mut self, value: u64) -> Page {
        self.0.extend(value.to_le_bytes());
        self
    }

    /// Some numbers.
    pub fn words(mut self, values: &[u64]) -> Page {
        self.0.extend(values.iter().flat_map(|value| value.to_le_bytes()));
        self
    }

    /// A list as a case has it: how many numbers, and the numbers.
    pub fn list(self, values: &[u64]) -> Page {
        self.word(values.len() as u64).words(values)
    }

    /// Plain bytes.
    pub fn bytes(mut self, bytes: &[u8]) -> Page {
        self.0.extend(bytes);
        self
    }

    /// A refusal's number and place, zeros where nothing is refused.
    pub fn refusal(self, refusal: Option<Refusal>) -> Page {
        let Refusal { number, place } = refusal.unwrap_or(Refusal { number: 0, place: 0 });
        self.words(&[number, place])
    }
}

/// The number at a place of some bytes, or nothing where they end before it does.
pub fn word_at(bytes: &[u8], place: usize) -> Option<u64> {
    bytes.get(place..).and_then(|rest| rest.first_chunk()).map(|chunk| u64::from_le_bytes(*chunk))
}

//! The answers worked by hand: sheets A to F, the runs G and H, the numbers I, the texts and sheet C written again, held against this
//! program's own rules.

use crate::bound::{bounds, Outcome};
use crate::machine::{fresh, margin, run, slot};
use crate::number::{number, Refusal};
use crate::play::played;
use crate::reader::{label, read};
use crate::scenario;
use crate::sheet::fixed;
use crate::text::{reference, verdict};
use crate::writer::{labels, sheet_bytes, write};

/// Sheet C with the labels roll and trim.
pub const SHEET_C: &[u8] = b"GSH\x01\x02\x02\x04roll\x02\x02\x02\x01\x04trim\x01\x04\x04\x03";

/// Stops where this program's own rules give another answer than the one on paper.
pub fn check() {
    sheets();
    runs();
    bytes();
    texts();
    scenarios();
    written();
}

/// The bounds of sheets A to F.
fn sheets() {
    use Outcome::{Bound, NoBound};
    let results = [
        vec![Bound(2), Bound(5)],
        vec![Bound(2), Bound(4), Bound(7)],
        vec![Bound(1), NoBound],
        vec![Bound(1), Bound(4)],
        vec![Bound(2), Bound(4)],
        vec![Bound(1)],
    ];
    for (sheet, results) in fixed().iter().zip(results) {
        assert_eq!(bounds(sheet), results);
    }
}

/// The codes of G and H, and margins in G after its first slot.
fn runs() {
    let [_, b, c, ..] = fixed();
    let mut codes = [9; 10];
    assert_eq!(run(&c, &fresh(&c), &[1, 3, 0, 0, 1, 0, 0, 0], &mut codes).done, 4);
    assert_eq!(codes, [3, 1, 0, 2, 3, 1, 0, 4, 9, 9]);
    let mut codes = [9; 12];
    assert_eq!(run(&b, &fresh(&b), &[2, 2, 3, 0, 0, 0, 0, 0, 0, 0, 0, 0], &mut codes).done, 4);
    assert_eq!(codes, [2, 1, 2, 3, 1, 2, 0, 2, 3, 0, 3, 0]);
    let state = slot(&c, &fresh(&c), &[1, 3], &mut [0; 2]).expect("the first slot of G is accepted");
    assert_eq!(margin(&c, &state, 0), Ok(None));
    assert_eq!(margin(&c, &state, 1), Ok(Some(0)));
    assert_eq!(margin(&c, &state, 2), Err(Refusal { number: 14, place: 0 }));
}

/// The numbers I, and sheet C's bytes and labels.
fn bytes() {
    assert_eq!(number(b"\x80\x01", 0), Ok((128, 2)));
    assert_eq!(number(b"\x80\x00", 0), Err(Refusal { number: 3, place: 0 }));
    assert_eq!(read(SHEET_C).map(|(sheet, _)| sheet), Ok(fixed()[2].clone()));
    assert_eq!(label(SHEET_C, 0), Ok((7, 4)));
    assert_eq!(label(SHEET_C, 1), Ok((16, 4)));
    assert_eq!(label(SHEET_C, 2), Err(Refusal { number: 14, place: 0 }));
}

/// The verdict on sheet C, whole and with its last byte zero, and the first lines of the reference.
fn texts() {
    assert_eq!(verdict(SHEET_C), b"0 roll bound 1\n1 trim none -\nFAILS\n");
    let mut zero = SHEET_C.to_vec();
    zero[23] = 0;
    assert_eq!(verdict(&zero), b"NO VERDICT 7 23\n");
    assert!(
        reference().starts_with(b"A\n0 r0 bound 2\n1 r1 bound 5\nHOLDS\nB\n0 r0 bound 2\n1 r1 bound 4\n2 r2 bound 7\nHOLDS\nC\n")
    );
}

/// G as a scenario, written, read and played, and a file for each refusal.
fn scenarios() {
    let c = &fixed()[2];
    let bytes = b"GSC\x01\x02\x00\x01\x01\x03\x00\x01\x00\x01\x00";
    assert_eq!(scenario::write(c, &[1, 3, 0, 0, 1, 0, 0, 0]), Ok(bytes.to_vec()));
    assert_eq!(scenario::read(c, bytes).map(|slots| slots.concat()), Ok(vec![1, 3, 0, 0, 1, 0, 0, 0]));
    assert_eq!(played(SHEET_C, bytes), b"0 3 1\n1 0 2\n2 3 1\n3 0 4\nSLOTS 4\n");
    assert_eq!(played(SHEET_C, b"GSC\x01\x01\x01\x03\x01\x01\x03"), b"0 0 2\nSLOT 1 REFUSED 13 1\n");
    let refused: [(&[u8], u64, u64); 8] = [
        (b"GSH\x01", 1, 0),
        (b"GSC\x01\x00\x01", 2, 6),
        (b"GSC\x01\x80\x00", 3, 4),
        (b"GSC\x01\x01\x02\x01", 14, 5),
        (b"GSC\x01\x02\x01\x01\x01\x01", 20, 7),
        (b"GSC\x01\x02\x01\x01\x00\x01", 20, 7),
        (b"GSC\x01\x01\x00\x00", 12, 6),
        (b"GSC\x01\x01\x01\x04", 12, 6),
    ];
    for (bytes, number, place) in refused {
        assert_eq!(scenario::read(c, bytes), Err(Refusal { number, place }));
        assert_eq!(played(SHEET_C, bytes), format!("REFUSED {number} {place} scenario\n").into_bytes());
    }
    assert_eq!(played(b"", bytes), b"REFUSED 1 0 sheet\n");
    assert_eq!(scenario::write(c, &[1]), Err(Refusal { number: 11, place: 0 }));
    assert_eq!(scenario::write(c, &[1, 3, 2, 0]), Err(Refusal { number: 12, place: 0 }));
}

/// Sheet C written from its own bytes: whole, with a number and with a label replaced, and refused in each way.
fn written() {
    let (list, parts) = (fixed()[2].list(), vec![7, 4, 16, 4]);
    assert_eq!(labels(SHEET_C), Ok(parts.clone()));
    assert_eq!(sheet_bytes(&list, SHEET_C, &parts), Ok(SHEET_C.to_vec()));
    assert_eq!(sheet_bytes(&list, b"rolltrim", &[0, 4, 4, 4]), Ok(SHEET_C.to_vec()));
    let shorter = b"GSH\x01\x02\x02\x04roll\x02\x02\x02\x01\x02ol\x01\x80\x01\x04\x03";
    let longer_separation = [&list[..7], &[128], &list[8..]].concat();
    assert_eq!(sheet_bytes(&longer_separation, SHEET_C, &[7, 4, 8, 2]), Ok(shorter.to_vec()));
    let refused: [(&[u64], u64); 8] = [
        (&[], 0),
        (&[7, 4, 16, 0], 1),
        (&[7, 4, 16, 5], 1),
        (&[7, 17, 16, 4], 0),
        (&[6, 4, 16, 4], 0),
        (&[7, 4, 24, 1], 1),
        (&[7, 4, u64::MAX, 4], 1),
        (&[7, 4, 16, u64::MAX], 1),
    ];
    let mut buffer = [9; 26];
    for (parts, place) in refused {
        assert_eq!(write(&list, SHEET_C, parts, &mut buffer), Err(Refusal { number: 6, place }));
        assert_eq!(write(&list[..9], SHEET_C, parts, &mut buffer), Err(Refusal { number: 10, place: 0 }));
    }
    assert_eq!(write(&list, SHEET_C, &parts, &mut buffer[..23]), Err(Refusal { number: 15, place: 0 }));
    assert_eq!(buffer, [9; 26]);
    assert_eq!(write(&list, SHEET_C, &parts, &mut buffer), Ok(24));
    assert_eq!(buffer, *[SHEET_C, &[9, 9]].concat());
}

//! A plate's parts by change request 7: refused in the printer's order by every program, else the record and its setting.

use crate::accept_tests::{again, applied, right, said, with};
use crate::address::*;
use crate::live::live;
use crate::load::load_and_check;
use crate::overlay::{overlay, NotOverlaid};
use crate::paper_tests::{value, word};
use crate::parts::parts;
use crate::plate;
use crate::rasters::rasters;
use crate::record::Record;
use crate::refusal::{refusal, refusal_at, Refusal};
use crate::sync_tests::{registers_of, spoilt, ORDER};
use crate::text::text;

/// What every program says of a plate with these registers and no other word.
fn texts(registers: &[u32]) -> [String; 4] {
    let plate = plate::write(registers, &[], &[], &[1], usize::MAX).unwrap();
    let overlaid = match overlay(&plate, &[]) {
        Err(NotOverlaid::Plate(refusal)) => format!("{refusal}\n"),
        other => format!("{other:?}"),
    };
    [text(&plate), live(&plate), rasters(&plate, 0), overlaid]
}

fn texts_of(refusal: Refusal) -> [String; 4] {
    [(); 4].map(|()| format!("refused {} {}\n", refusal.number, refusal.detail))
}

#[test]
fn a_plate_is_refused_in_the_printers_order() {
    // 11 applies to each of them.
    assert_eq!(texts(&registers_of(&right())), texts_of(refusal(11)));
    for number in ORDER {
        let list = registers_of(&spoilt(right(), number));
        assert_eq!(texts(&list), texts_of(said(number)));
        assert_eq!(texts(&with(&list, 9, word(0x5C, 0))), texts_of(refusal_at(2, 9)));
        assert_eq!(texts(&with(&again(&list, 1024), 9, word(0x5C, 0))), texts_of(refusal(1)));
        let mut file = plate::write(&again(&list, 1025), &[], &[], &[], usize::MAX).unwrap();
        file[4100] += 1;
        assert_eq!(text(&file), "refused 14 0\n");
        file.resize(65_537, 0);
        assert_eq!(text(&file), "refused 15 0\n");
    }
}

#[test]
fn a_plates_record_and_setting() {
    // Its sound is not judged.
    let registers = [registers_of(&right()), vec![word(STEREO_7, 0), value(HCR, 50)]].concat();
    let p = parts(&plate::write(&registers, &[3; 4], &[4, 5], &[6], 1000).unwrap()).unwrap();
    assert_eq!(p.record, applied(&Record::fresh(), &registers));
    assert_eq!(load_and_check(&Record::fresh(), &registers), Ok((p.record, p.setting)));
    assert_eq!((p.video, p.cursor), (vec![3; 4], vec![4, 5]));
}

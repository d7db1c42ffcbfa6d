//! Both directions between nets and PNML text, on both sides.

use generate::pnml::{ReadCase, WriteCase};
use reference::pnml;

use crate::rooms::{Answer, answer};

pub fn archive_write(case: &WriteCase) -> Answer {
    answer(case.room, |room| {
        let (number, record, length) =
            archive::pnml_write(case.places, case.marking, &case.net, room);
        (vec![number.into(), record], length)
    })
}

pub fn reference_write(case: &WriteCase) -> Answer {
    answer(case.room, |room| {
        match pnml::write(case.places, case.marking, &case.net, room) {
            Ok(length) => (vec![0, 0], length as u64),
            Err(refusal) => (vec![refusal.number.into(), refusal.record], 0),
        }
    })
}

pub fn archive_read(case: &ReadCase) -> Answer {
    answer(case.room, |room| {
        let (number, offset, places, marking, length) = archive::pnml_read(&case.text, room);
        (vec![number.into(), offset, places.into(), marking], length)
    })
}

pub fn reference_read(case: &ReadCase) -> Answer {
    answer(case.room, |room| match pnml::read(&case.text, room) {
        Ok(read) => {
            let numbers = vec![0, 0, read.places.into(), read.marking];
            (numbers, read.length as u64)
        }
        Err(refusal) => (vec![refusal.number.into(), refusal.record, 0, 0], 0),
    })
}

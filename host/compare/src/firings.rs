//! The single firings on both sides, and what their sets show.

use generate::firings::FiringCase;
use reference::net::fire;

/// Number, record, marking after, missing and occupied.
pub type Answer = (u32, u64, u64, u64, u64);

pub fn archive_firing(case: &FiringCase) -> Answer {
    archive::fire(case.places, case.marking, &case.net, case.transition)
}

pub fn reference_firing(case: &FiringCase) -> Answer {
    fire(case.places, case.marking, &case.net, case.transition).numbers()
}

/// Whether an answer has sets as it may: none unless it is 41, and then one at least that
/// is not empty, and no place in both.
pub fn sets_fit((number, _, _, missing, occupied): Answer) -> bool {
    match number {
        41 => missing | occupied != 0 && missing & occupied == 0,
        _ => missing | occupied == 0,
    }
}

/// What an answer 41 can show. A marked place in pre and post is not occupied, since its
/// token is taken away with pre.
pub const REASONS: [&str; 6] = [
    "missing only",
    "occupied only",
    "missing and occupied",
    "a marked place in pre and post",
    "place 63 missing",
    "place 63 occupied",
];

/// Which of the `REASONS` an answer shows.
pub fn reasons(case: &FiringCase, answer: Answer) -> [bool; REASONS.len()] {
    let (41, _, _, missing, occupied) = answer else {
        return [false; REASONS.len()];
    };
    let (pre, post) = case.sets();
    [
        occupied == 0,
        missing == 0,
        missing != 0 && occupied != 0,
        case.marking & pre & post != 0,
        missing >> 63 == 1,
        occupied >> 63 == 1,
    ]
}

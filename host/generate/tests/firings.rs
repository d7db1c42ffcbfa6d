//! The sets of generated firings: they are what must change for the transition to be
//! enabled, no place less and no place more.

use generate::firings::{FiringCase, firing_case};
use generate::prng::Prng;
use reference::net::{Firing, fire, members};

const CASES: usize = 20_000;

fn fire_at(case: &FiringCase, marking: u64) -> Firing {
    fire(case.places, marking, &case.net, case.transition)
}

/// Sees that the transition is enabled once the missing places have a token and the
/// occupied ones have none, and that any of them left as it is hinders it alone.
fn explained(case: &FiringCase, missing: u64, occupied: u64) {
    let reasons = missing | occupied;
    assert_ne!(reasons, 0);
    assert_eq!(missing & occupied, 0);
    let changed = case.marking ^ reasons;
    assert_eq!(changed, case.marking & !occupied | missing);
    assert_eq!(fire_at(case, changed).numbers().0, 0);
    for place in members(reasons) {
        let one = 1 << place;
        let alone = Firing::NotEnabled {
            missing: missing & one,
            occupied: occupied & one,
        };
        assert_eq!(fire_at(case, changed ^ one), alone);
    }
}

#[test]
fn reasons() {
    let mut rng = Prng::new(1);
    let (mut kinds, mut last) = ([0; 4], [0; 2]);
    for _ in 0..CASES {
        let case = firing_case(&mut rng);
        let Firing::NotEnabled { missing, occupied } = fire_at(&case, case.marking) else {
            continue;
        };
        explained(&case, missing, occupied);
        let (pre, post) = case.sets();
        kinds[0] += usize::from(occupied == 0);
        kinds[1] += usize::from(missing == 0);
        kinds[2] += usize::from(missing != 0 && occupied != 0);
        kinds[3] += usize::from(case.marking & pre & post != 0);
        last[0] += usize::from(missing >> 63 == 1);
        last[1] += usize::from(occupied >> 63 == 1);
    }
    println!("{kinds:?}, place 63 {last:?}");
    assert!(kinds.iter().all(|&count| count > CASES / 50));
    assert!(last.iter().all(|&count| count > CASES / 200));
}

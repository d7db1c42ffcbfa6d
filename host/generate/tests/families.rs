//! The samples and families have the answers documents 01 and 02 give them.

use generate::cases::TreeCase;
use generate::families;
use reference::check::check;

fn line(case: &TreeCase) -> String {
    check(&case.ask, &case.net, &case.formulas, &case.tree).to_string()
}

#[test]
fn samples() {
    assert_eq!(line(&families::r_holds()), "accepted nodes 23");
    assert_eq!(line(&families::r_fails(2)), "broken 24 at 3");
    assert_eq!(line(&families::r_fails(0)), "broken 26 at 1");
    assert_eq!(line(&families::one_place()), "accepted nodes 4");
}

/// The case with these transitions optional, and the tree as it is.
fn marked(mut case: TreeCase, optional: &[usize]) -> TreeCase {
    optional.iter().for_each(|t| case.net[24 * t + 18] = 1);
    case
}

#[test]
fn optional() {
    // Rules 6 and 31 ask for a pressed transition; 7 and 31 keep only those.
    let holds = |optional: &[usize]| line(&marked(families::r_holds(), optional));
    assert_eq!(holds(&[2]), "accepted nodes 23");
    assert_eq!(holds(&[1]), "broken 26 at 2");
    assert_eq!(holds(&[0]), "broken 26 at 2");
    assert_eq!(holds(&[0, 1]), "broken 24 at 0");
    let fails = |optional: &[usize]| line(&marked(families::r_fails(2), optional));
    assert_eq!(fails(&[2]), "broken 24 at 3");
    assert_eq!(fails(&[1]), "broken 26 at 0");
    assert_eq!(fails(&[0, 1]), "broken 24 at 0");
    assert_eq!(line(&families::r_optional()), "accepted nodes 4");
    let both = marked(families::r_optional(), &[0]);
    assert_eq!(line(&both), "broken 24 at 0");
    assert_eq!(line(&families::marked_round(64, 6)), "accepted nodes 258");
    assert_eq!(line(&families::marked_round(2, 3)), "broken 24 at 0");
}

#[test]
fn sizes() {
    assert_eq!(line(&families::trail_chain(799)), "accepted nodes 1600");
    assert_eq!(line(&families::plain_chain(21_843)), "accepted nodes 65534");
    assert_eq!(line(&families::realistic()), "accepted nodes 65536");
    assert_eq!(line(&families::full_round(1)), "accepted nodes 6");
    assert_eq!(line(&families::full_round(64)), "accepted nodes 258");
    assert_eq!(line(&families::and_tree(16)), "accepted nodes 65536");
    assert_eq!(line(&families::r_copies(11)), "accepted nodes 49151");
    assert_eq!(line(&families::wide()), "accepted nodes 65536");
    assert_eq!(line(&families::optional_rings()), "accepted nodes 65536");
}

//! Random nets with a marking, and random formula tables.

use reference::formula::{ALL, AND, Formula, NOT, SOME, STEP};
use reference::net::below;

use crate::encode::{self, Transition};
use crate::prng::Prng;

/// A net with a marking.
#[derive(Clone, Debug)]
pub struct Setting {
    pub places: u32,
    pub transitions: Vec<Transition>,
    /// The set of the optional transitions.
    pub optional: u64,
    pub marking: u64,
    /// An action that must come to an end on all runs, where there is one.
    pub goal: Option<u16>,
}

impl Setting {
    /// The net's table.
    pub fn net(&self) -> Vec<u8> {
        encode::marked_net(&self.transitions, self.optional)
    }
}

/// A net under construction on the places 0 to `used` - 1.
struct Draft {
    used: usize,
    transitions: Vec<Transition>,
    marking: u64,
}

/// A random net, mostly small.
pub fn setting(rng: &mut Prng) -> Setting {
    let kind = rng.below(16);
    let mut draft = match kind {
        0..=4 => components(rng),
        5..=7 => scattered(rng),
        8 => wild(rng),
        9 => handshake(rng),
        10 => tangle(rng),
        11 => ring(rng),
        12 => contact(rng),
        ENDING => ending(rng),
        _ => full(rng),
    };
    decorate(rng, &mut draft);
    let goal = (kind == ENDING).then_some(GOAL);
    let setting = embed(rng, draft);
    Setting {
        optional: optional(rng, setting.transitions.len()),
        goal,
        ..setting
    }
}

/// The optional ones of so many transitions: none, one, some or all.
pub fn optional(rng: &mut Prng, count: usize) -> u64 {
    let all = below(count as u32);
    match rng.below(10) {
        0 | 1 => 0,
        2..=4 => 1 << rng.below(count),
        5 | 6 => rng.number() & rng.number() & all,
        7 | 8 => rng.number() & all,
        _ => all,
    }
}

/// The number of `ending` among the kinds of nets.
const ENDING: usize = 13;
/// The action of the processes there.
const GOAL: u16 = 7;

fn action(rng: &mut Prng) -> u16 {
    match rng.below(30) {
        0 => u16::MAX,
        1 => 256,
        _ => rng.below(3) as u16,
    }
}

fn bit(place: usize) -> u64 {
    1 << place
}

/// One to three rings with a token each; steps inside a ring only.
fn components(rng: &mut Prng) -> Draft {
    let mut draft = Draft {
        used: 0,
        transitions: Vec::new(),
        marking: 0,
    };
    for _ in 0..rng.pick(&[1, 1, 2, 2, 2, 3]) {
        let size = rng.pick(&[1, 1, 2, 2, 3]);
        let first = draft.used;
        for place in 0..size {
            let to = match rng.percent(75) {
                true => (place + 1) % size,
                false => rng.below(size),
            };
            draft.transitions.push(Transition {
                pre: bit(first + place),
                post: bit(first + to),
                action: action(rng),
            });
        }
        if rng.percent(30) {
            draft.transitions.push(Transition {
                pre: bit(first + rng.below(size)),
                post: match rng.percent(50) {
                    true => 0,
                    false => bit(first + rng.below(size)),
                },
                action: action(rng),
            });
        }
        draft.marking |= bit(first + rng.below(size));
        draft.used += size;
    }
    draft
}

/// Transitions with small random sets.
fn scattered(rng: &mut Prng) -> Draft {
    let used = rng.between(1, 5);
    let small = |rng: &mut Prng| {
        let count = rng.pick(&[0, 1, 1, 1, 2]);
        (0..count).fold(0, |set, _| set | bit(rng.below(used)))
    };
    let count = rng.between(1, 5);
    let transitions = (0..count).map(|_| Transition {
        pre: small(rng),
        post: small(rng),
        action: action(rng),
    });
    Draft {
        used,
        transitions: transitions.collect(),
        marking: rng.number() & below(used as u32),
    }
}

/// Any sets at all, over any number of places.
fn wild(rng: &mut Prng) -> Draft {
    let used = rng.between(1, 64);
    let all = below(used as u32);
    let set = |rng: &mut Prng| match rng.below(4) {
        0 => 0,
        1 => rng.number() & all,
        2 => rng.number() & rng.number() & rng.number() & all,
        _ => bit(rng.below(used)),
    };
    let count = rng.between(1, 8);
    let transitions = (0..count).map(|_| Transition {
        pre: set(rng),
        post: set(rng),
        action: action(rng),
    });
    Draft {
        used,
        transitions: transitions.collect(),
        marking: (rng.number() | rng.number()) & all,
    }
}

/// Two rings and a transition that takes from both.
fn handshake(rng: &mut Prng) -> Draft {
    let mut draft = components(rng);
    let all = below(draft.used as u32);
    for _ in 0..rng.between(1, 2) {
        let pre = bit(rng.below(draft.used)) | bit(rng.below(draft.used));
        let post = match rng.percent(60) {
            true => pre,
            false => rng.number() & rng.number() & all,
        };
        let action = action(rng);
        draft.transitions.push(Transition { pre, post, action });
    }
    draft
}

/// Loops at one marking that conflict with each other in part, so that some
/// wait for others.
fn tangle(rng: &mut Prng) -> Draft {
    let used = rng.between(1, 4);
    let marking = below(used as u32);
    let count = rng.between(1, 4);
    let transitions = (0..count).map(|_| {
        let set = rng.number() & marking;
        let action = action(rng);
        Transition {
            pre: set,
            post: set,
            action,
        }
    });
    Draft {
        used,
        transitions: transitions.collect(),
        marking,
    }
}

/// Sources and drains of a few places, so that transitions conflict by their
/// post sets alone.
fn contact(rng: &mut Prng) -> Draft {
    let used = rng.between(1, 3);
    let one = |rng: &mut Prng, empty: usize| match rng.percent(empty) {
        true => 0,
        false => bit(rng.below(used)),
    };
    let count = rng.between(2, 5);
    let transitions = (0..count).map(|_| Transition {
        pre: one(rng, 55),
        post: one(rng, 35),
        action: action(rng),
    });
    Draft {
        used,
        transitions: transitions.collect(),
        marking: rng.number() & rng.number() & below(used as u32),
    }
}

/// A small ring that can end, beside one or two processes that must end, so
/// that dead markings are met on the way round loops.
fn ending(rng: &mut Prng) -> Draft {
    let size = rng.between(1, 3);
    let mut transitions = Vec::new();
    for place in 0..size {
        transitions.push(Transition {
            pre: bit(place),
            post: bit((place + 1) % size),
            action: action(rng),
        });
    }
    transitions.push(Transition {
        pre: bit(rng.below(size)),
        post: 0,
        action: action(rng),
    });
    if rng.percent(50) {
        let place = bit(rng.below(size));
        transitions.push(Transition {
            pre: place,
            post: place,
            action: action(rng),
        });
    }
    let processes = rng.pick(&[1, 1, 1, 2]);
    for process in 0..processes {
        transitions.push(Transition {
            pre: bit(size + process),
            post: 0,
            action: GOAL,
        });
    }
    rng.shuffle(&mut transitions);
    Draft {
        used: size + processes,
        transitions,
        marking: bit(rng.below(size)) | below(processes as u32) << size,
    }
}

/// One long ring with some short cuts, and sometimes a loop beside it.
fn ring(rng: &mut Prng) -> Draft {
    let size = rng.between(4, 12);
    let step = |from: usize, to: usize, action: u16| Transition {
        pre: bit(from),
        post: bit(to),
        action,
    };
    let mut transitions = Vec::new();
    for place in 0..size {
        transitions.push(step(place, (place + 1) % size, action(rng)));
    }
    for _ in 0..rng.below(3) {
        transitions.push(step(rng.below(size), rng.below(size), action(rng)));
    }
    let mut draft = Draft {
        used: size,
        transitions,
        marking: bit(rng.below(size)),
    };
    if rng.percent(40) {
        draft.transitions.push(step(size, size, action(rng)));
        draft.marking |= bit(size);
        draft.used += 1;
    }
    draft
}

/// Many transitions, most of them never enabled.
fn full(rng: &mut Prng) -> Draft {
    let mut draft = components(rng);
    let unmarked = draft.used;
    draft.used += 1;
    let count = rng.pick(&[30, 62, 63, 64]);
    while draft.transitions.len() < count {
        let post = bit(rng.below(draft.used));
        let action = action(rng);
        let pre = bit(unmarked) | bit(rng.below(draft.used));
        draft.transitions.push(Transition { pre, post, action });
    }
    rng.shuffle(&mut draft.transitions);
    draft
}

/// Sometimes adds a transition that touches no place, a copy of another
/// transition, or a loop.
fn decorate(rng: &mut Prng, draft: &mut Draft) {
    let added = match rng.below(12) {
        0 => Transition {
            pre: 0,
            post: 0,
            action: action(rng),
        },
        1 => rng.pick(&draft.transitions),
        2 => {
            let set = bit(rng.below(draft.used));
            let action = action(rng);
            Transition {
                pre: set,
                post: set,
                action,
            }
        }
        _ => return,
    };
    if draft.transitions.len() < 64 {
        let at = rng.below(draft.transitions.len() + 1);
        draft.transitions.insert(at, added);
    }
}

/// Spreads the places of a draft over the numbers of the net's places.
fn embed(rng: &mut Prng, draft: Draft) -> Setting {
    let most = match rng.below(10) {
        0 => 64,
        1 => draft.used,
        _ => (draft.used + 3).min(64),
    };
    let places = rng.between(draft.used, most);
    let mut numbers: Vec<usize> = (0..places).collect();
    if rng.percent(60) {
        rng.shuffle(&mut numbers);
    }
    let moved = |set: u64| {
        let members = (0..draft.used).filter(|&p| set >> p & 1 == 1);
        members.fold(0, |set, p| set | bit(numbers[p]))
    };
    let transitions = draft.transitions.iter().map(|t| Transition {
        pre: moved(t.pre),
        post: moved(t.post),
        action: t.action,
    });
    Setting {
        places: places as u32,
        transitions: transitions.collect(),
        optional: 0,
        marking: moved(draft.marking),
        goal: None,
    }
}

/// A random formula table, with actions of the net for the most part.
pub fn formulas(rng: &mut Prng, setting: &Setting) -> Vec<Formula> {
    let mut table = vec![Formula::default()];
    if let Some(goal) = setting.goal {
        table.extend(until_ended(goal));
    }
    let count = match rng.below(40) {
        0 => 1,
        1 => 256,
        _ => rng.between(3, 9),
    };
    while table.len() < count {
        if table.len() == 3 && rng.percent(40) {
            // "Not" of a step, which holds where nothing is enabled.
            table.push(Formula {
                operator: NOT,
                left: rng.between(1, 2) as u16,
                ..Formula::default()
            });
            continue;
        }
        let operator = match (table.len(), rng.below(10)) {
            (1..=2, 0..=6) => STEP,
            (_, 0) => NOT,
            (_, 1) => AND,
            (_, 2) => STEP,
            (_, 3..=5) => SOME,
            (1, _) => NOT,
            _ => ALL,
        };
        let formula = formula(rng, setting, &table, operator);
        table.push(formula);
    }
    table
}

/// "True until the action is not enabled, on all runs", as records 1 to 3.
fn until_ended(goal: u16) -> [Formula; 3] {
    let record = |operator: u8, left: u16, right: u16, action: u16| Formula {
        operator,
        left,
        right,
        action,
    };
    [
        record(STEP, 0, 0, goal),
        record(NOT, 1, 0, 0),
        record(ALL, 0, 2, 0),
    ]
}

fn formula(rng: &mut Prng, setting: &Setting, table: &[Formula], operator: u8) -> Formula {
    let plain = rng.percent(50);
    let left = match plain {
        true => 0,
        false => rng.below(table.len()) as u16,
    };
    let right = rng.below(table.len()) as u16;
    let action = action_of(rng, setting);
    let (left, right, action) = match operator {
        NOT => (right, 0, 0),
        STEP => (left, 0, action),
        _ => (left, right, 0),
    };
    Formula {
        operator,
        left,
        right,
        action,
    }
}

/// An action, of the net for the most part.
pub fn action_of(rng: &mut Prng, setting: &Setting) -> u16 {
    match rng.percent(85) {
        true => rng.pick(&setting.transitions).action,
        false => action(rng),
    }
}

//! Generated nets and texts on the reader and the writer, and on the definition.

use std::collections::BTreeMap;

use generate::pnml::{ReadCase, WriteCase, read_case, write_case};
use generate::prng::Prng;
use reference::net::{Firing, Net};
use reference::pnml_definition::{self as definition, Drawing};
use reference::{Refusal, net, pnml};

/// How often each number was answered.
type Answers = BTreeMap<u32, usize>;

fn assert_occurred(answers: &Answers, numbers: &[u32]) {
    println!("{answers:?}");
    let occurred: Vec<u32> = answers.keys().copied().collect();
    assert_eq!(occurred, numbers);
}

/// What must be written.
fn expected(case: &WriteCase) -> Result<Vec<u8>, Refusal> {
    // A transition that no net has: the firing refuses it after all else.
    match net::fire(case.places, case.marking, &case.net, u32::MAX) {
        Firing::Refused(load) if load.number != 8 => return Err(load),
        answer => assert_eq!(answer.numbers().0, 8),
    }
    let net = Net::decode(case.places, &case.net)?;
    let text = Drawing::of(&net, case.marking).text().into_bytes();
    match case.room < text.len() {
        true => Err(Refusal {
            number: 12,
            record: 0,
        }),
        false => Ok(text),
    }
}

#[test]
fn writes() {
    let mut rng = Prng::new(1);
    let mut answers = Answers::new();
    for _ in 0..30_000 {
        let case = write_case(&mut rng);
        let mut room = vec![0xA5; case.room];
        let found = pnml::write(case.places, case.marking, &case.net, &mut room);
        let text = expected(&case);
        assert_eq!(found, text.clone().map(|text| text.len()));
        let number = found.map_or_else(|refusal| refusal.number, |_| 0);
        *answers.entry(number).or_default() += 1;
        let length = found.unwrap_or(0);
        assert!(room[length..].iter().all(|&b| b == 0xA5));
        if let Ok(text) = text {
            assert_eq!(room[..length], text);
            returns(&case, &text);
        }
    }
    assert_occurred(&answers, &[0, 1, 2, 3, 7, 12]);
}

/// Sees that reading the written text returns the net.
fn returns(case: &WriteCase, text: &[u8]) {
    let mut records = vec![0xA5; case.net.len()];
    let read = pnml::read(text, &mut records).expect("a text of the shape");
    assert_eq!((read.places, read.marking), (case.places, case.marking));
    assert_eq!(records, case.net);
}

/// How much the definition has to try, at most.
fn work(text: &[u8]) -> usize {
    let count = |letter: u8| {
        text.windows(2)
            .filter(|pair| *pair == [b'<', letter])
            .count()
    };
    count(b'p') * count(b't') * count(b'a')
}

#[test]
fn reads() {
    let mut rng = Prng::new(2);
    let mut answers = Answers::new();
    let (mut compared, mut offsets) = (0, 0);
    for _ in 0..16_000 {
        let case = read_case(&mut rng);
        let mut room = vec![0xA5; case.room];
        let read = pnml::read(&case.text, &mut room);
        let number = read.map_or_else(|refusal| refusal.number, |_| 0);
        *answers.entry(number).or_default() += 1;
        let length = read.map_or(0, |read| read.length);
        assert!(room[length..].iter().all(|&b| b == 0xA5));
        if work(&case.text) > 20_000 {
            continue;
        }
        let found = read.map(|read| (read.places, read.marking, room[..length].to_vec()));
        let text = String::from_utf8_lossy(&case.text);
        assert_eq!(found, definition::answer(&case.text, case.room), "{text}");
        compared += 1;
        offsets += usize::from(number == 13);
    }
    println!("{compared} by the definition, {offsets} offsets");
    assert!(compared > 12_000 && offsets > 6_000);
    assert_occurred(&answers, &[0, 1, 2, 12, 13]);
}

#[test]
fn the_same_cases_for_a_seed() {
    let cases = |seed: u64| -> (Vec<WriteCase>, Vec<ReadCase>) {
        let mut rng = Prng::new(seed);
        let writes = (0..200).map(|_| write_case(&mut rng)).collect();
        (writes, (0..200).map(|_| read_case(&mut rng)).collect())
    };
    assert_eq!(cases(3), cases(3));
    assert_ne!(cases(3), cases(4));
}

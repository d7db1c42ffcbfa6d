//! What occurred, and whether it passes.

use generate::cases::{KINDS, Kind};
use reference::rules::RULES;

use crate::firings::REASONS;
use crate::{joined, saved};

/// The answers that must occur.
const ANSWERS: [u32; 19] = [
    0, 1, 2, 3, 4, 5, 6, 7, 8, 9, 10, 20, 21, 22, 23, 24, 25, 26, 41,
];

/// The answers of the writer and of the reader of PNML text that must occur.
const WRITES: [u32; 6] = [0, 1, 2, 3, 7, 12];
const READS: [u32; 5] = [0, 1, 2, 12, 13];

/// The answers of the writer of trees that must occur.
const WRITTEN: [u32; 9] = [0, 1, 2, 3, 4, 5, 7, 12, 14];

/// The answers of the converter of category files that must occur, and those that must
/// for files with a record of kind 1.
const CONVERTED: [u32; 4] = [0, 9, 10, 12];
const BORROWED: [u32; 3] = [0, 10, 12];

/// The answers of the join that must occur.
const JOINED: [u32; 7] = [0, 1, 2, 3, 7, 12, 15];

/// The answers of saving room that must occur.
const SAVED: [u32; 16] = [0, 1, 2, 3, 4, 5, 6, 7, 12, 20, 21, 22, 23, 24, 25, 26];

/// The rules that depend on what is pressed, all of which must occur in accepted
/// trees at markings where an optional transition is enabled.
const PRESSED: [u32; 6] = [6, 7, 9, 12, 29, 31];

/// How many differences and contradictions are printed.
const PRINTED: usize = 5;

/// A count of findings with the shortest of their lines.
#[derive(Default)]
struct Findings {
    count: u64,
    lines: Vec<String>,
}

impl Findings {
    /// Counts a finding on tables of `size` bytes in all.
    fn add(&mut self, size: usize, line: impl Fn() -> String) {
        self.count += 1;
        let longest = self.lines.last().map_or(0, String::len);
        if self.lines.len() == PRINTED && 2 * size >= longest {
            return;
        }
        self.lines.push(line());
        self.lines.sort_by_key(String::len);
        self.lines.truncate(PRINTED);
    }

    fn print(&self, name: &str) {
        self.lines
            .iter()
            .for_each(|line| println!("{name}: {line}"));
    }
}

/// How often each number below 64 occurred.
struct Counts([u64; 64]);

impl Default for Counts {
    fn default() -> Counts {
        Counts([0; 64])
    }
}

impl Counts {
    fn add(&mut self, number: u32) {
        self.0[number as usize] += 1;
    }

    fn text(&self, numbers: &[u32]) -> String {
        let count = |&n: &u32| format!("{n}:{}", self.0[n as usize]);
        numbers.iter().map(count).collect::<Vec<_>>().join(" ")
    }

    /// Those of the numbers that never occurred.
    fn missing(&self, name: &str, numbers: &[u32]) -> Vec<String> {
        let missing = numbers.iter().filter(|&&n| self.0[n as usize] == 0);
        missing.map(|n| format!("{name} {n}")).collect()
    }
}

/// How many cases show each of several things.
struct Shown<const N: usize>([u64; N]);

impl<const N: usize> Default for Shown<N> {
    fn default() -> Shown<N> {
        Shown([0; N])
    }
}

impl<const N: usize> Shown<N> {
    fn add(&mut self, shown: [bool; N]) {
        let counts = self.0.iter_mut().zip(shown);
        counts.for_each(|(count, shown)| *count += u64::from(shown));
    }

    fn text(&self, names: &[&str; N]) -> String {
        let count = |(name, n): (&&str, u64)| format!("{name} {n}");
        let counts = names.iter().zip(self.0).map(count);
        counts.collect::<Vec<_>>().join(", ")
    }

    /// Those of the names that never occurred.
    fn missing(&self, of: &str, names: &[&str; N]) -> Vec<String> {
        let missing = names.iter().zip(self.0).filter(|(_, n)| *n == 0);
        missing.map(|(name, _)| format!("{of}, {name}")).collect()
    }
}

/// How many cases there were, and how many of them were granted.
#[derive(Clone, Copy, Default)]
struct Granted {
    all: u64,
    granted: u64,
}

impl Granted {
    fn add(&mut self, answer: u32) {
        self.all += 1;
        self.granted += u64::from(answer == 0);
    }
}

/// The same of all cases and of those with an optional transition.
#[derive(Clone, Copy, Default)]
struct Marked {
    cases: Granted,
    optional: Granted,
}

impl Marked {
    fn add(&mut self, optional: bool, answer: u32) {
        self.cases.add(answer);
        if optional {
            self.optional.add(answer);
        }
    }

    fn print(&self, name: &str, granted: &str) {
        println!(
            "  {name}: {}, {granted} {}; with an optional transition {}, {granted} {}",
            self.cases.all, self.cases.granted, self.optional.all, self.optional.granted
        );
    }
}

#[derive(Default)]
pub struct Tally {
    kinds: [Marked; KINDS.len()],
    pub label_pairs: u64,
    pub labels: u64,
    /// Pairs that are refused for a record of kind 1 alone.
    pub retired: u64,
    firings: Marked,
    /// How many answers 41 show each of the reasons.
    reasons: Shown<{ REASONS.len() }>,
    rules: Counts,
    /// The rules where an optional transition is enabled.
    optional_rules: Counts,
    answers: Counts,
    writes: Counts,
    optional_writes: Counts,
    reads: Counts,
    optional_reads: Counts,
    written: Counts,
    optional_written: Counts,
    /// The answers where the formula table has an "until".
    until_written: Counts,
    converted: Counts,
    /// The answers where the file has a record of kind 1.
    borrowed_converted: Counts,
    joined: Counts,
    /// How many pairs of nets show each of what they can.
    joined_shown: Shown<{ joined::SHOWN.len() }>,
    saved: Counts,
    /// How many cases of saving room show each of what they can.
    saved_shown: Shown<{ saved::SHOWN.len() }>,
    pub evaluated: u64,
    pub unevaluated: u64,
    pub refused_valid: u64,
    pub stuck: u64,
    pub too_large: u64,
    pub too_many_markings: u64,
    differences: Findings,
    contradictions: Findings,
    unserved: Findings,
    unfit: Findings,
    unlike: Findings,
    unsaved: Findings,
}

impl Tally {
    pub fn tree(&mut self, kind: Kind, optional: bool, answer: u32) {
        let place = KINDS.iter().position(|k| k.0 == kind).expect("a kind");
        self.kinds[place].add(optional, answer);
    }

    pub fn firing(&mut self, optional: bool, answer: u32) {
        self.firings.add(optional, answer);
    }

    pub fn reasons(&mut self, shown: [bool; REASONS.len()]) {
        self.reasons.add(shown);
    }

    pub fn answer(&mut self, number: u32) {
        self.answers.add(number);
    }

    pub fn write(&mut self, number: u32, optional: bool) {
        self.writes.add(number);
        if optional {
            self.optional_writes.add(number);
        }
    }

    pub fn read(&mut self, number: u32, optional: bool) {
        self.reads.add(number);
        if optional {
            self.optional_reads.add(number);
        }
    }

    pub fn written(&mut self, number: u32, optional: bool, until: bool) {
        self.written.add(number);
        if optional {
            self.optional_written.add(number);
        }
        if until {
            self.until_written.add(number);
        }
    }

    pub fn converted(&mut self, number: u32, borrowed: bool) {
        self.converted.add(number);
        if borrowed {
            self.borrowed_converted.add(number);
        }
    }

    pub fn joined(&mut self, number: u32, shown: [bool; joined::SHOWN.len()]) {
        self.joined.add(number);
        self.joined_shown.add(shown);
    }

    pub fn saved(&mut self, number: u32, shown: [bool; saved::SHOWN.len()]) {
        self.saved.add(number);
        self.saved_shown.add(shown);
    }

    /// A rule of an accepted tree, at a marking where an optional transition is
    /// enabled or not.
    pub fn rule(&mut self, number: u8, optional: bool) {
        self.rules.add(number.into());
        if optional {
            self.optional_rules.add(number.into());
        }
    }

    pub fn difference(&mut self, size: usize, line: impl Fn() -> String) {
        self.differences.add(size, line);
    }

    pub fn contradiction(&mut self, size: usize, line: impl Fn() -> String) {
        self.contradictions.add(size, line);
    }

    /// A converted file that does not serve as the one before did.
    pub fn unserved(&mut self, size: usize, line: impl Fn() -> String) {
        self.unserved.add(size, line);
    }

    /// A firing of the archive with sets that cannot be.
    pub fn unfit(&mut self, size: usize, line: impl Fn() -> String) {
        self.unfit.add(size, line);
    }

    /// A joint net of the archive that fires otherwise than its halves.
    pub fn unlike(&mut self, size: usize, line: impl Fn() -> String) {
        self.unlike.add(size, line);
    }

    /// New tables of the archive that it does not accept, or that change once more.
    pub fn unsaved(&mut self, size: usize, line: impl Fn() -> String) {
        self.unsaved.add(size, line);
    }

    pub fn print(&self) {
        println!("cases by kind:");
        for (place, (_, name)) in KINDS.iter().enumerate() {
            self.kinds[place].print(name, "accepted");
        }
        println!(
            "  category pairs: {}, labels found {}, refused for kind 1 alone {}",
            self.label_pairs, self.labels, self.retired
        );
        self.firings.print("single firings", "fired");
        println!("  not enabled: {}", self.reasons.text(&REASONS));
        println!("rules in accepted trees:");
        println!("  {}", self.rules.text(&RULES.map(u32::from)));
        println!(
            "  with an optional transition enabled: {}",
            self.optional_rules.text(&PRESSED)
        );
        println!("answers:");
        println!("  {}", self.answers.text(&ANSWERS));
        println!("  nets written: {}", self.writes.text(&WRITES));
        println!("  texts read: {}", self.reads.text(&READS));
        println!(
            "  with an optional transition: written {}, read {}",
            self.optional_writes.text(&[0]),
            self.optional_reads.text(&[0])
        );
        println!("  trees written: {}", self.written.text(&WRITTEN));
        println!(
            "  with an optional transition {}, with an until in the table {}",
            self.optional_written.text(&[0]),
            self.until_written.text(&[0, 14])
        );
        println!("  files converted: {}", self.converted.text(&CONVERTED));
        println!(
            "  with a record of kind 1: {}",
            self.borrowed_converted.text(&BORROWED)
        );
        println!("  nets joined: {}", self.joined.text(&JOINED));
        println!("  of these: {}", self.joined_shown.text(&joined::SHOWN));
        println!("  room saved: {}", self.saved.text(&SAVED));
        println!("  of these: {}", self.saved_shown.text(&saved::SHOWN));
        println!(
            "accepted trees with the meaning evaluated: {}, graph too large: {}",
            self.evaluated, self.unevaluated
        );
        println!(
            "searches over the budget: {}, nets with too many markings: {}",
            self.too_large, self.too_many_markings
        );
        println!("true claims without a tree: {}", self.stuck);
        println!(
            "trees by the rules that the reference refuses: {}",
            self.refused_valid
        );
        for missing in self.missing() {
            println!("never occurred: {missing}");
        }
        self.contradictions.print("accepted against the meaning");
        self.unserved.print("against the file before");
        self.unfit.print("sets that cannot be");
        self.unlike.print("otherwise than the halves");
        self.unsaved.print("against the tables before");
        self.differences.print("difference");
        println!(
            "accepted against the meaning: {}",
            self.contradictions.count
        );
        println!("against the file before: {}", self.unserved.count);
        println!("sets that cannot be: {}", self.unfit.count);
        println!("otherwise than the halves: {}", self.unlike.count);
        println!("against the tables before: {}", self.unsaved.count);
        println!("differences: {}", self.differences.count);
    }

    fn missing(&self) -> Vec<String> {
        let mut missing = self.rules.missing("rule", &RULES.map(u32::from));
        let marked = [
            ("optional: rule", &self.optional_rules, &PRESSED[..]),
            ("optional: writer's answer", &self.optional_writes, &[0]),
            ("optional: reader's answer", &self.optional_reads, &[0]),
            (
                "optional: written tree's answer",
                &self.optional_written,
                &[0],
            ),
            ("until: written tree's answer", &self.until_written, &[0]),
            (
                "kind 1: converter's answer",
                &self.borrowed_converted,
                &BORROWED,
            ),
        ];
        for (name, counts, numbers) in marked {
            missing.extend(counts.missing(name, numbers));
        }
        missing.extend(self.answers.missing("answer", &ANSWERS));
        missing.extend(self.writes.missing("writer's answer", &WRITES));
        missing.extend(self.reads.missing("reader's answer", &READS));
        missing.extend(self.written.missing("written tree's answer", &WRITTEN));
        missing.extend(self.converted.missing("converter's answer", &CONVERTED));
        missing.extend(self.reasons.missing("answer 41", &REASONS));
        missing.extend(self.joined.missing("join's answer", &JOINED));
        missing.extend(self.joined_shown.missing("join", &joined::SHOWN));
        missing.extend(self.saved.missing("saving's answer", &SAVED));
        missing.extend(self.saved_shown.missing("saving", &saved::SHOWN));
        if self.retired == 0 {
            missing.push("answer 10 for kind 1 alone".to_owned());
        }
        missing
    }

    pub fn passed(&self) -> bool {
        self.differences.count == 0
            && self.contradictions.count == 0
            && self.unserved.count == 0
            && self.unfit.count == 0
            && self.unlike.count == 0
            && self.unsaved.count == 0
            && self.stuck == 0
            && self.refused_valid == 0
            && self.missing().is_empty()
    }
}

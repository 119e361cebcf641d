//! Gives the port and the Rust pairs of paths that differ in a detour alone (document 02, 10/13; `compare::detours`), and
//! compares the answers and every list afterwards: of both paths with each other, and of the port with the Rust.
//!
//!     detours COUNT SEED [POINTS [FIRST]]                       so many pairs
//!     detours --without CONDITION COUNT SEED [POINTS [FIRST]]   pairs that break a condition, to find some that differ
//!
//! POINTS is how many there are at most around the run: 12 unless given, 4 with --without. Each pair goes to both
//! clippers, under lists around the least ones of the first path. A difference stops the run with both inputs.
//! CONDITION is inside, only, beyond, last or three; it is an error if no such pair differs in paths or turns.

use compare::detours::{random_pair, Condition, Pair};
use compare::judge::Kind;
use compare::lists::around;
use compare::random::Random;
use port::harness::Lists;
use port::series::{Seen, Series};
use port::sheet::Sheet;
use port::KINDS;
use std::env;

/// The conditions by the words that name them here.
const WITHOUT: [(&str, Condition); 5] = [
    ("detours --without inside", Condition::Inside),
    ("detours --without only", Condition::Only),
    ("detours --without beyond", Condition::Beyond),
    ("detours --without last", Condition::Last),
    ("detours --without three", Condition::Three),
];

fn main() -> Result<(), String> {
    let words: Vec<String> = env::args().skip(1).collect();
    if let [option, condition, numbers @ ..] = &words[..] {
        if option == "--without" {
            return search(condition, numbers);
        }
    }
    println!("detours: {}", Series::read("detours", &words, 12)?.run(same));
    Ok(())
}

/// A pair that meets every condition: for both clippers the Rust does the same with both paths, and the port too.
fn same(random: &mut Random, points: usize, seen: &mut Seen) {
    let pair = random_pair(random, points, None);
    for kind in KINDS.into_iter().filter(|&kind| pair.broken(kind).is_empty()) {
        let sheets = sheets(&pair, kind);
        let [one, two] = sheets.each_ref().map(|sheet| &sheet.run);
        assert!(one == two, "the Rust does {one:?} and {two:?}, of\n{}", pair.rows(kind));
        let differ = difference(&sheets, random, seen).unwrap_or_else(Some);
        assert!(differ.is_none(), "{}, of\n{}", differ.unwrap_or_default(), pair.rows(kind));
    }
}

fn sheets(pair: &Pair, kind: Kind) -> [Sheet; 2] {
    pair.drawings(kind).map(|drawing| Sheet::new(kind, drawing.rect, drawing.path))
}

/// Calls the port with both paths under every list around the least ones of the first. Gives a difference between the two
/// paths, in the answer or in a list afterwards; or, as an error, one between the port and the Rust.
fn difference(sheets: &[Sheet; 2], random: &mut Random, seen: &mut Seen) -> Result<Option<String>, String> {
    let run = sheets[0].run.as_ref().ok_or("a path is not within the limits")?;
    let mut differ = None;
    for lent in around(run) {
        let before = Lists::filled(lent, || random.bits());
        let calls = sheets.each_ref().map(|sheet| sheet.call(lent, before.clone()));
        let checks = [0, 1].map(|i| sheets[i].wrong(lent, before.clone(), calls[i].0, &calls[i].1));
        if let Some(wrong) = checks.into_iter().flatten().next() {
            return Err(wrong);
        }
        calls.iter().for_each(|(said, _)| seen.count(*said));
        if calls[0] != calls[1] {
            differ = Some(format!("the port with {lent:?} gives {:?} and {:?}", calls[0], calls[1]));
        }
    }
    Ok(differ)
}

/// Pairs that break one condition: how many differ, and the shortest of those whose paths or turns differ.
fn search(condition: &str, numbers: &[String]) -> Result<(), String> {
    let named = WITHOUT.into_iter().find(|(words, _)| words.rsplit(' ').next() == Some(condition));
    let (words, dropped) = named.ok_or(format!("{condition} is no condition: inside, only, beyond, last or three"))?;
    let mut found = Found::default();
    Series::read(words, numbers, 4)?.run(|random, points, seen| {
        let pair = random_pair(random, points, Some(dropped));
        for kind in KINDS.into_iter().filter(|&kind| pair.broken(kind) == [dropped]) {
            found.add(&pair, kind, random, seen);
        }
    });
    let Found { tried, differ, shown } = found;
    let shortest = shown.iter().min_by_key(|rows| rows.len());
    let rows = shortest.ok_or(format!("{words}: of {tried} pairs none differs in paths or turns"))?;
    println!("{words}: {differ} of {tried} pairs differ, {} in paths or turns, such as\n{rows}", shown.len());
    Ok(())
}

/// Pairs that were tried, those that differ under some lists, and the rows of those whose paths or turns differ.
#[derive(Default)]
struct Found {
    tried: u64,
    differ: u64,
    shown: Vec<String>,
}

impl Found {
    fn add(&mut self, pair: &Pair, kind: Kind, random: &mut Random, seen: &mut Seen) {
        let sheets = sheets(pair, kind);
        let differ = difference(&sheets, random, seen);
        let differ = differ.unwrap_or_else(|wrong| panic!("{wrong}, of\n{}", pair.rows(kind)));
        let [one, two] = sheets.each_ref().map(|sheet| sheet.run.as_ref().map(|run| (&run.paths, run.turns)));
        self.tried += 1;
        self.differ += differ.is_some() as u64;
        self.shown.extend((one != two).then(|| pair.rows(kind)));
    }
}

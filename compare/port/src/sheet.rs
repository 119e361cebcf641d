//! One drawing for the entries of libharness.a: the right answer of a call, what the call leaves in every list, and the
//! facts of `compare::facts` for what the port returned.

use crate::harness::{clip, Lists};
use compare::facts::broken;
use compare::judge::{self, early_refusal, in_limit, late_answer, Answer, Kind, Lent, Rect, Run, MAX_PATH};

/// What is drawn, with what the Rust does with it where 1 and 5 to 7 let it through.
pub struct Sheet {
    pub kind: Kind,
    pub rect: Rect,
    pub path: Vec<i64>,
    pub run: Option<Run>,
}

impl Sheet {
    pub fn new(kind: Kind, rect: Rect, path: Vec<i64>) -> Self {
        let whole = path.len().is_multiple_of(2) && path.len() / 2 <= MAX_PATH;
        let run = (whole && in_limit(&path) && in_limit(&rect)).then(|| judge::run(kind, rect, &path));
        Sheet { kind, rect, path, run }
    }

    /// The port's answer and every list afterwards.
    pub fn call(&self, lent: Lent, mut lists: Lists) -> (u32, Lists) {
        let said = clip(self.kind, self.rect, &self.path, lent.a as u32, &mut lists);
        (said, lists)
    }

    /// The answer that is right. The harness alone gives 11 where the counts have no place, and fills nothing then.
    fn right_answer(&self, lent: Lent, counts: usize) -> Answer {
        let lent = if counts < 3 { Lent { coordinates: 0, lengths: 0, ..lent } } else { lent };
        let answer = match (early_refusal(self.kind, self.rect, &self.path, lent), &self.run) {
            (Some(number), _) => Answer::Refused(number),
            (None, Some(run)) => late_answer(run, lent),
            (None, None) => panic!("1 to 7 let through what the Rust was not called with"),
        };
        match answer {
            Answer::Drawn(_) if counts < 3 => Answer::Refused(11),
            answer => answer,
        }
    }

    /// What is wrong with a call's answer, with what it left in the lists, or with what it returned.
    pub fn wrong(&self, lent: Lent, before: Lists, said: u32, after: &Lists) -> Option<String> {
        let Sheet { kind, rect, path, run } = self;
        let input = || format!("{kind:?} {rect:?} {path:?} {lent:?}");
        let answer = self.right_answer(lent, before.counts.len());
        let number = if let Answer::Refused(number) = answer { number } else { 0 };
        if said != number {
            return Some(format!("{said} instead of {number}, the answer of {}", input()));
        }
        let right = left_by(&answer, before);
        if *after != right {
            return Some(format!("the lists after {}:\n{after:?}\ninstead of\n{right:?}", input()));
        }
        let held = run.as_ref().filter(|_| said == 0);
        let broken = held.and_then(|run| broken(*kind, *rect, path, run, after.paths()));
        broken.map(|fact| format!("not so: {fact}, of {}", input()))
    }
}

/// What an answer leaves in the lists that were lent.
fn left_by(answer: &Answer, mut lists: Lists) -> Lists {
    if let Answer::Drawn(drawn) = answer {
        lists.coordinates[..drawn.coordinates.len()].copy_from_slice(&drawn.coordinates);
        lists.lengths[..drawn.lengths.len()].copy_from_slice(&drawn.lengths);
        lists.counts[..3].copy_from_slice(&[drawn.paths() as u32, drawn.points() as u32, drawn.turns]);
    }
    if !matches!(answer, Answer::Refused(1..=7)) {
        lists.store.fill(0);
        lists.work.fill(0);
    }
    lists
}

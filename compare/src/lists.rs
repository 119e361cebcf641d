//! Lent lists to try a drawing with: around the sizes at which the answer changes.

use crate::judge::{work_needed, Lent, Run, MAX_POINTS, MAX_TURNS};

/// The least lists that give this run's result, if a call may have them.
pub fn least(run: &Run) -> Lent {
    let (w, a) = (run.least_w(), run.turns as usize);
    let coordinates = run.paths.iter().map(Vec::len).sum();
    Lent { w, a, work: work_needed(w, a), coordinates, lengths: run.paths.len() }
}

/// The least lists; plenty; each size in turn one less, where it is not 0; and each in turn one more.
/// With a larger W or A the work list grows as it must; with a smaller one it stays, longer than needed.
pub fn around(run: &Run) -> Vec<Lent> {
    let least = least(run);
    let mut all = vec![least, plenty(least)];
    for size in SIZES {
        let mut shorter = least;
        if *size(&mut shorter) > 0 {
            *size(&mut shorter) -= 1;
            all.push(shorter);
        }
        let mut longer = least;
        *size(&mut longer) += 1;
        longer.work = longer.work.max(work_needed(longer.w, longer.a));
        all.push(longer);
    }
    all
}

/// Every size well above the least, as far as a call may have it.
fn plenty(least: Lent) -> Lent {
    let (w, a) = ((2 * least.w + 16).min(MAX_POINTS), (2 * least.a + 16).min(MAX_TURNS));
    Lent { w, a, work: work_needed(w, a) + 99, coordinates: 2 * least.coordinates + 9, lengths: 2 * least.lengths + 9 }
}

/// The five sizes of what is lent.
const SIZES: [fn(&mut Lent) -> &mut usize; 5] =
    [|l| &mut l.w, |l| &mut l.a, |l| &mut l.work, |l| &mut l.coordinates, |l| &mut l.lengths];

#[cfg(test)]
mod tests {
    use super::*;
    use crate::judge::{early_refusal, late_answer, run, Answer, Kind};

    /// The refusals of the lists around the least ones, 0 for a result.
    fn refusals(kind: Kind, path: &[i64]) -> Vec<u32> {
        let rect = [0, 0, 100, 100];
        let run = run(kind, rect, path);
        let number = |lent| match (early_refusal(kind, rect, path, lent), late_answer(&run, lent)) {
            (Some(number), _) | (None, Answer::Refused(number)) => number,
            (None, Answer::Drawn(_)) => 0,
        };
        around(&run).into_iter().map(number).collect()
    }

    #[test]
    fn one_less_is_refused_and_one_more_is_not() {
        let teeth = [10, -5, 10, 5, 20, 5, 20, -5, 30, -5, 30, 5, 40, 5, 40, -5, 50, -9, 5, -9];
        assert_eq!(refusals(Kind::Closed, &teeth), [0, 0, 8, 0, 10, 0, 4, 0, 11, 0, 11, 0]);
    }

    #[test]
    fn lines_have_no_turns() {
        assert_eq!(refusals(Kind::Open, &[-50, 10, 150, 10]), [0, 0, 8, 0, 0, 4, 0, 11, 0, 11, 0]);
    }

    #[test]
    fn nothing_needs_a_work_list_only() {
        assert_eq!(refusals(Kind::Closed, &[200, 0, 300, 0, 300, 9]), [0, 0, 0, 0, 4, 0, 0, 0]);
    }
}

//! A series of random drawings: each is made from the seed and its own number, so that one can be repeated alone.
//! And what was seen in it.

use compare::random::Random;
use std::fmt;
use std::panic::{catch_unwind, resume_unwind, AssertUnwindSafe};
use std::time::{Duration, Instant};

/// How often progress is printed.
const PROGRESS: Duration = Duration::from_secs(20);

pub struct Series {
    program: &'static str,
    count: u64,
    seed: u64,
    points: usize,
    first: u64,
}

impl Series {
    /// Reads COUNT SEED [POINTS [FIRST]].
    pub fn read(program: &'static str, words: &[String], points: usize) -> Result<Self, String> {
        let usage = |cause: String| format!("{cause}; usage: {program} COUNT SEED [POINTS [FIRST]]");
        let numbers = words.iter().map(|word| word.parse::<u64>().map_err(|e| usage(format!("{word}: {e}"))));
        let numbers: Vec<u64> = numbers.collect::<Result<_, _>>()?;
        let (count, seed, points, first) = match numbers[..] {
            [count, seed] => (count, seed, points, 0),
            [count, seed, points] => (count, seed, points as usize, 0),
            [count, seed, points, first] => (count, seed, points as usize, first),
            _ => return Err(usage(format!("{} numbers", numbers.len()))),
        };
        Ok(Series { program, count, seed, points, first })
    }

    /// Makes and tries each drawing; prints progress, and how to repeat a failure.
    pub fn run(&self, mut one: impl FnMut(&mut Random, usize, &mut Seen)) -> Seen {
        let (mut seen, mut printed) = (Seen::default(), Instant::now());
        for number in self.first..self.first + self.count {
            let mut random = Random::nth(self.seed, number);
            let tried = catch_unwind(AssertUnwindSafe(|| one(&mut random, self.points, &mut seen)));
            if let Err(cause) = tried {
                eprintln!("again: {} 1 {} {} {number}", self.program, self.seed, self.points);
                resume_unwind(cause)
            }
            if printed.elapsed() > PROGRESS {
                printed = Instant::now();
                eprintln!("{}: {} of {} drawings, {seen}", self.program, number + 1 - self.first, self.count);
            }
        }
        seen
    }
}

/// Calls by answer: 0, or the refusal's number.
#[derive(Default)]
pub struct Seen([u64; 12]);

impl Seen {
    pub fn count(&mut self, answer: u32) {
        self.0[answer as usize] += 1;
    }
}

impl fmt::Display for Seen {
    fn fmt(&self, f: &mut fmt::Formatter) -> fmt::Result {
        let met = self.0.iter().enumerate().filter(|(_, &calls)| calls > 0);
        let met: Vec<String> = met.map(|(answer, calls)| format!("{answer} ×{calls}")).collect();
        write!(f, "{} calls, no difference (answers {})", self.0.iter().sum::<u64>(), met.join(", "))
    }
}

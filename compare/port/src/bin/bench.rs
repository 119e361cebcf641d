//! Time per call of the port, of the Rust and, with the feature `geos`, of GEOS's clip by rectangle, on the same drawings in
//! one run, with ratios, as the tables of docs/PERFORMANCE.md: both clippers, and *present*.
//!
//!     bench [MILLISECONDS [DRAWING]]              how long each row is measured (600 unless given); one drawing's rows
//!     bench --calls COUNT WHO JOB DRAWING SIZE    so many calls of one of them and nothing else, for a profiler:
//!                                                 port, Rust or GEOS; closed, lines or present; a drawing of the table; points
//!
//! The port's lists have W and A sized to the drawing; clearing them is part of every call. The Rust allocates as it does;
//! for *present*, which it lacks, it takes the bounds by `get_bounds_path` and asks whether they meet the rectangle.
//! GEOS's input is built before, and its result is freed in the call. The three take turns, batch by batch, and each figure
//! is the fastest batch; a batch of more than two milliseconds is measured in processor time of the thread.

use compare::core::get_bounds_path;
use compare::judge::{path_of, rect_of, run, Kind, Rect, Run, MAX_POINTS, MAX_TURNS};
use compare::lists::least;
use compare::random::Random;
use compare::rectclip::{RectClip64, RectClipLines64};
use port::harness::{clip, present, Lists};
use std::hint::black_box;
use std::time::{Duration, Instant};

const SIZES: [usize; 4] = [16, 128, 1_024, 4_096];
const RECT: Rect = [0, 0, 1_000_000, 1_000_000];
const USAGE: &str = "usage: bench [MILLISECONDS [DRAWING]], or bench --calls COUNT WHO JOB DRAWING SIZE";

/// What a call does: a clipper by the path's kind, or *present*.
#[derive(Clone, Copy)]
enum Job {
    Clip(Kind),
    Present,
}

const JOBS: [(&str, &str, Job); 3] = [
    ("closed", "Polygons", Job::Clip(Kind::Closed)),
    ("lines", "Lines", Job::Clip(Kind::Open)),
    ("present", "Present", Job::Present),
];

fn main() {
    let words: Vec<String> = std::env::args().skip(1).collect();
    let words: Vec<&str> = words.iter().map(String::as_str).collect();
    match words[..] {
        [] => tables(600, None),
        [time] => tables(number(time), None),
        [time, drawing] => tables(number(time), Some(drawing)),
        ["--calls", count, who, job, drawing, size] => calls(number(count), who, job, drawing, number(size)),
        _ => panic!("{USAGE}"),
    }
}

fn number(word: &str) -> usize {
    word.parse().unwrap_or_else(|e| panic!("{word}: {e}; {USAGE}"))
}

fn tables(milliseconds: usize, only: Option<&str>) {
    #[cfg(feature = "geos")]
    println!("GEOS {}", port::geos::version());
    JOBS.iter().for_each(|&(_, title, job)| table(title, job, Duration::from_millis(milliseconds as u64), only));
}

/// One job on every drawing, or one alone, and every size.
fn table(title: &str, job: Job, time: Duration, only: Option<&str>) {
    println!("\n## {title}\n");
    println!("| drawing | points | paths | turns | port ns | Rust ns | port / Rust | GEOS ns | port / GEOS |");
    println!("|---|---|---|---|---|---|---|---|---|");
    for (name, make) in DRAWINGS.into_iter().filter(|&(name, _)| only.is_none_or(|one| one == name)) {
        for size in SIZES {
            let path = make(size);
            let counts = match job {
                Job::Clip(kind) => counts_of(&run(kind, RECT, &path)),
                Job::Present => "— | —".to_string(),
            };
            let names = ["port", "Rust", "GEOS"];
            let mut contestants = names.map(|who| contestant(who, job, &path));
            let best = fastest(time, &mut contestants);
            let figure = |who: usize| best[who].map_or("—".to_string(), |ns| thousands(ns.round() as u64));
            let ratio = |who: usize| match (best[0], best[who]) {
                (Some(port), Some(other)) => format!("{:.2}", port / other),
                _ => "—".to_string(),
            };
            let size = thousands(size as u64);
            let [port, rust, geos] = [0, 1, 2].map(figure);
            println!("| {name} | {size} | {counts} | {port} | {rust} | {} | {geos} | {} |", ratio(1), ratio(2));
        }
    }
}

/// The paths and turns of a drawing.
fn counts_of(run: &Run) -> String {
    [run.paths.len() as u64, run.turns].map(thousands).join(" | ")
}

fn thousands(n: u64) -> String {
    if n < 1_000 {
        n.to_string()
    } else {
        format!("{},{:03}", thousands(n / 1_000), n % 1_000)
    }
}

/// Calls of one contestant, and nothing else.
fn calls(count: usize, who: &str, job: &str, drawing: &str, size: usize) {
    let (_, _, job) = JOBS.into_iter().find(|&(name, _, _)| name == job).expect(USAGE);
    let (_, make) = DRAWINGS.into_iter().find(|&(name, _)| name == drawing).expect(USAGE);
    let path = make(size);
    let mut call = contestant(who, job, &path).expect("it does this job");
    (0..count).for_each(|_| call());
}

type Call<'a> = Box<dyn FnMut() + 'a>;

/// One call of the named one, where it does the job.
fn contestant<'a>(who: &str, job: Job, path: &'a [i64]) -> Option<Call<'a>> {
    match (who, job) {
        ("port", Job::Clip(kind)) => port_call(kind, path),
        ("port", Job::Present) => Some(port_present(path)),
        ("Rust", Job::Clip(kind)) => Some(rust_call(kind, path)),
        ("Rust", Job::Present) => Some(rust_present(path)),
        ("GEOS", Job::Clip(kind)) => geos_call(kind, path),
        ("GEOS", Job::Present) => None,
        _ => panic!("{who}: {USAGE}"),
    }
}

fn port_present(path: &[i64]) -> Call<'_> {
    assert_eq!(present(RECT, path), 1, "a path of {} points", path.len() / 2);
    Box::new(move || {
        black_box(present(RECT, black_box(path)));
    })
}

fn rust_present(path: &[i64]) -> Call<'static> {
    let (rect, path) = (rect_of(RECT), path_of(path));
    Box::new(move || {
        black_box(!rect.is_empty() && rect.intersects(&get_bounds_path(black_box(&path))));
    })
}

/// Nothing where the drawing needs more than a call may have.
fn port_call(kind: Kind, path: &[i64]) -> Option<Call<'_>> {
    let lent = least(&run(kind, RECT, path));
    if lent.w > MAX_POINTS || lent.a > MAX_TURNS {
        return None;
    }
    let mut lists = Lists::filled(lent, || 0);
    let refused = clip(kind, RECT, path, lent.a as u32, &mut lists);
    assert_eq!(refused, 0, "{kind:?} of {} points with {lent:?}", path.len() / 2);
    Some(Box::new(move || {
        black_box(clip(kind, RECT, black_box(path), lent.a as u32, &mut lists));
    }))
}

fn rust_call(kind: Kind, path: &[i64]) -> Call<'static> {
    let (rect, paths) = (rect_of(RECT), vec![path_of(path)]);
    match kind {
        Kind::Closed => Box::new(move || {
            black_box(RectClip64::new(rect).execute(black_box(&paths)));
        }),
        Kind::Open => Box::new(move || {
            black_box(RectClipLines64::new(rect).execute(black_box(&paths)));
        }),
    }
}

#[cfg(not(feature = "geos"))]
fn geos_call(_: Kind, _: &[i64]) -> Option<Call<'static>> {
    None
}

/// Nothing where the job is not the same: a polygon that crosses itself, or another area or length than the Rust's.
#[cfg(feature = "geos")]
fn geos_call(kind: Kind, path: &[i64]) -> Option<Call<'static>> {
    let geometry = port::geos::Geometry::new(kind, path);
    let returned: f64 = run(kind, RECT, path).paths.iter().map(|p| size(kind, p)).sum();
    let same = geometry.is_valid() && (geometry.clip(RECT).size() / returned.abs() - 1.0).abs() < 1e-3;
    same.then(|| -> Call { Box::new(move || drop(black_box(black_box(&geometry).clip(RECT)))) })
}

/// The signed area of a polygon, or the length of a line.
#[cfg(feature = "geos")]
fn size(kind: Kind, path: &[i64]) -> f64 {
    let length = |(p, q): (&[i64], &[i64])| ((q[0] - p[0]) as f64).hypot((q[1] - p[1]) as f64);
    match kind {
        Kind::Closed => compare::judge::doubled_area(path) as f64 / 2.0,
        Kind::Open => path.chunks(2).zip(path[2..].chunks(2)).map(length).sum(),
    }
}

/// Nanoseconds a call of each, the fastest of its batches. Batches of some 200 microseconds take turns until the time is over,
/// twenty rounds at least.
fn fastest(time: Duration, calls: &mut [Option<Call>; 3]) -> [Option<f64>; 3] {
    let mut batches = [0_u32; 3];
    for (call, batch) in calls.iter_mut().zip(&mut batches) {
        let Some(call) = call else { continue };
        let once = (0..10).map(|_| spent_by(&mut *call)).fold(f64::MAX, f64::min);
        *batch = (200_000.0 / once).clamp(1.0, 10_000.0) as u32;
    }
    let (begun, mut best) = (Instant::now(), [None; 3]);
    for round in 0.. {
        if round >= 20 && begun.elapsed() > time {
            break;
        }
        for i in 0..3 {
            let Some(call) = &mut calls[i] else { continue };
            let ns = spent_by(|| (0..batches[i]).for_each(|_| call())) / f64::from(batches[i]);
            best[i] = Some(best[i].map_or(ns, |least: f64| least.min(ns)));
        }
    }
    best
}

/// Nanoseconds that this takes; of processor time where it is so long that the system may have interrupted it.
fn spent_by(work: impl FnOnce()) -> f64 {
    let (start_of_thread, start) = (thread_time(), Instant::now());
    work();
    let (all, thread) = (start.elapsed(), thread_time() - start_of_thread);
    if all > Duration::from_millis(2) {
        thread
    } else {
        all.as_nanos() as f64
    }
}

/// The processor time of this thread so far, in nanoseconds (POSIX's CLOCK_THREAD_CPUTIME_ID, which is 3 on Linux).
fn thread_time() -> f64 {
    extern "C" {
        fn clock_gettime(clock: i32, time: *mut [i64; 2]) -> i32;
    }
    let mut time = [0; 2];
    let failed = unsafe { clock_gettime(3, &mut time) };
    assert_eq!(failed, 0, "the system tells a thread's processor time");
    time[0] as f64 * 1e9 + time[1] as f64
}

type Make = fn(usize) -> Vec<i64>;
const DRAWINGS: [(&str, Make); 7] = [
    ("inside", inside),
    ("circle across the edges", circle),
    ("circle round the rectangle", circle_round),
    ("random walk", random_walk),
    ("comb", comb),
    ("comb closed outside", closed_comb),
    ("two combs apart", two_combs),
];

fn round(size: usize, radius: f64) -> Vec<i64> {
    let at = |i: usize| i as f64 * std::f64::consts::TAU / size as f64;
    let along = |part: f64| (500_000.0 + radius * part) as i64;
    (0..size).flat_map(|i| [along(at(i).cos()), along(at(i).sin())]).collect()
}

/// A circle that stays within the rectangle.
fn inside(size: usize) -> Vec<i64> {
    round(size, 400_000.0)
}

/// A circle across the four edges.
fn circle(size: usize) -> Vec<i64> {
    round(size, 600_000.0)
}

/// A circle that contains the rectangle and does not meet it.
fn circle_round(size: usize) -> Vec<i64> {
    round(size, 1_000_000.0)
}

/// Steps to and fro around the rectangle.
fn random_walk(size: usize) -> Vec<i64> {
    let mut random = Random::new(7);
    (0..2 * size).map(|_| random.between(-200_000, 1_200_000)).collect()
}

/// Teeth along the top edge; as a polygon its closing segment runs through them.
fn comb(size: usize) -> Vec<i64> {
    let step = 900_000 / size.max(1) as i64;
    (0..size as i64).flat_map(|i| [50_000 + i * step, if i / 2 % 2 == 0 { -1_000 } else { 1_000 }]).collect()
}

/// The comb with its last two points outside, so that it does not cross itself.
fn closed_comb(size: usize) -> Vec<i64> {
    let mut path = comb(size);
    let last = path[2 * size - 6];
    path.splice(2 * size - 4.., [last, -2_000, 50_000, -2_000]);
    path
}

/// Teeth to the right along one half of the top edge and to the left along the other: no two overlap, so that no tidy turn
/// finds something to do.
fn two_combs(size: usize) -> Vec<i64> {
    let (half, step) = (size as i64 / 2, 800_000 / size as i64);
    let across = |i: i64| if (i + 1) / 2 % 2 == 0 { 1_000 } else { -1_000 };
    let onward = (0..half).flat_map(|i| [50_000 + i * step, across(i)]);
    onward.chain((0..half).flat_map(|i| [950_000 - i * step, across(i)])).collect()
}

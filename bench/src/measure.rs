//! Times of the proved library beside those of the plain implementation.
use crate::agree::{compare_pair_texts, compare_tables, file, same_tables};
use crate::hoa::{text_file, NO_MACHINE, TEXT_ROOM};
use crate::plain::{self, Machine, Pair, EMPTY, FILE_ROOM};
use crate::{nested, proved, sweeps};
use std::hint::black_box;
use std::time::Instant;

// the best time of several runs, in microseconds
fn time(mut job: impl FnMut()) -> f64 {
    let mut best = f64::MAX;
    let begin = Instant::now();
    let mut runs = 0;
    while runs < 5 || (begin.elapsed().as_millis() < 400 && runs < 2000) {
        let start = Instant::now();
        job();
        best = best.min(start.elapsed().as_secs_f64() * 1e6);
        runs += 1;
    }
    best
}

extern "C" {
    fn clock_gettime(clock: i32, time: *mut [i64; 2]) -> i32;
}

// the processor's time for this thread, in microseconds: what it waits while others run does not count
fn processor_time() -> f64 {
    const CLOCK_THREAD_CPUTIME_ID: i32 = 3;
    let mut t = [0i64; 2];
    assert_eq!(unsafe { clock_gettime(CLOCK_THREAD_CPUTIME_ID, &mut t) }, 0);
    t[0] as f64 * 1e6 + t[1] as f64 / 1e3
}

// The best time of each of several long jobs, in microseconds. They run in turn, so that what else the machine does meets all of them; the longest
// run once.
fn race<const N: usize>(mut jobs: [&mut dyn FnMut(); N]) -> [f64; N] {
    let mut best = [f64::MAX; N];
    let begin = Instant::now();
    let mut rounds = 0;
    while rounds == 0 || (begin.elapsed().as_secs() < 5 && rounds < 1000) {
        for (best, job) in best.iter_mut().zip(&mut jobs) {
            let start = processor_time();
            job();
            *best = best.min(processor_time() - start);
        }
        rounds += 1;
    }
    best
}

fn row(name: &str, ours: f64, theirs: f64) {
    println!("{name:52} {ours:12.1} us {theirs:12.1} us   ratio {:.2}", ours / theirs);
}

fn solver_row(name: &str, ours: f64, theirs: f64, nested: f64) {
    println!("{name:52} {ours:12.1} us {theirs:12.1} us   ratio {:.2} {nested:14.1} us   times {:.1}", ours / theirs, nested / ours);
}

pub fn judge(name: &str, f: &[u8]) {
    assert_eq!(proved::console(f), plain::verdict(f).number(), "{name}");
    let a = time(|| {
        black_box(proved::console(black_box(f)));
    });
    let b = time(|| {
        black_box(plain::verdict(black_box(f)));
    });
    row(name, a, b);
}

pub fn playing(name: &str, f: &[u8], stem: &[u8], cycle: &[u8]) {
    let mut run = vec![0u8; plain::ROOM];
    let (s, q) = proved::play(f, stem, cycle, &mut run).unwrap().expect("a run");
    let a = time(|| {
        black_box(proved::play(black_box(f), stem, cycle, &mut run)).unwrap();
    });
    let b = time(|| {
        black_box(plain::play_file(black_box(f), stem, cycle, &mut run)).unwrap();
    });
    row(&format!("{name}, run {s} + {q}"), a, b);
}

// ---- texts

fn write_proved(files: &[Vec<u8>], which: usize, out: &mut [u8]) {
    for f in files {
        let _ = black_box(proved::text(black_box(f), black_box(which), out));
    }
}

fn write_plain(files: &[Vec<u8>], which: usize, out: &mut [u8]) {
    for f in files {
        let _ = black_box(text_file(black_box(f), black_box(which), out));
    }
}

// The rigs' texts of shows without a table, times for one: the whole call, and the text's part of it, which is what a call that is refused after
// reading does not take.
pub fn writing(name: &str, pairs: &[Pair]) {
    pairs.iter().for_each(compare_pair_texts);
    let files: Vec<_> = pairs.iter().map(|p| file(p, None)).collect();
    let [w, x, y, z] = &mut [(); 4].map(|_| vec![0u8; TEXT_ROOM]);
    let [ours, our_reading, theirs, their_reading] = race([
        &mut || write_proved(&files, 0, w),
        &mut || write_proved(&files, NO_MACHINE, x),
        &mut || write_plain(&files, 0, y),
        &mut || write_plain(&files, NO_MACHINE, z),
    ])
    .map(|t| t / pairs.len() as f64);
    row(&format!("read and write as HOA, {name}"), ours, theirs);
    row(&format!("the text's part of it, {name}"), ours - our_reading, theirs - their_reading);
}

// ---- the solvers

fn solve_proved(files: &[Vec<u8>], out: &mut [u8]) {
    for f in files {
        black_box(proved::solve(black_box(f), out)).unwrap();
    }
}

fn solve_plain(solve: fn(&Pair, &mut [u16]), files: &[Vec<u8>], out: &mut [u8]) {
    for f in files {
        black_box(plain::solve_file(solve, black_box(f), out)).unwrap();
    }
}

// one pair; how many times longer nested iteration takes
pub fn solving(name: &str, p: &Pair) -> f64 {
    compare_tables(p);
    let files = [file(p, None)];
    let mut out = vec![0u8; FILE_ROOM];
    let ours = time(|| solve_proved(&files, &mut out));
    let theirs = time(|| solve_plain(sweeps::solve, &files, &mut out));
    let nested = time(|| solve_plain(nested::solve, &files, &mut out));
    solver_row(name, ours, theirs, nested);
    nested / ours
}

// a show of the same counts in which no pair is matched, so that the solver has next to nothing to do
fn idle(p: &Pair) -> Pair {
    let still = |m: &Machine, observation: u8| {
        let mut x = Machine { states: m.states, sets: m.sets, start: 1, ..EMPTY };
        for s in 0..m.states {
            x.observations[s] = observation;
            x.successors[s] = 1 << s;
        }
        x.fairness[..m.sets].fill(1);
        x
    };
    Pair::new(still(&p.c, 0), still(&p.a, 1))
}

// Many pairs, times for one: the whole call, and the solver's part of it, which is what the same call on idle shows of the same counts does not
// take. The larger ratio of the two, and how many times longer the whole call takes with nested iteration.
pub fn batch(name: &str, pairs: &[Pair]) -> (f64, f64) {
    let files: Vec<_> = pairs.iter().map(|p| file(p, None)).collect();
    let idle_files: Vec<_> = pairs.iter().map(|p| file(&idle(p), None)).collect();
    let [v, w, x, y, z] = &mut [(); 5].map(|_| vec![0u8; FILE_ROOM]);
    let [ours, our_idle, theirs, their_idle] = race([
        &mut || solve_proved(&files, v),
        &mut || solve_proved(&idle_files, w),
        &mut || solve_plain(sweeps::solve, &files, x),
        &mut || solve_plain(sweeps::solve, &idle_files, y),
    ])
    .map(|t| t / pairs.len() as f64);
    let [nested] = race([&mut || solve_plain(nested::solve, &files, z)]).map(|t| t / pairs.len() as f64);
    let (our_part, their_part) = (ours - our_idle, theirs - their_idle);
    solver_row(&format!("read, solve and write, {name}"), ours, theirs, nested);
    solver_row(&format!("the solver's part of it, {name}"), our_part, their_part, nested - their_idle);
    ((ours / theirs).max(our_part / their_part), nested / ours)
}

// Pairs of growing size. Nested iteration is measured on the first only: on the others it would take from minutes to days.
pub fn hard_family(name: &str, pairs: &[Pair]) {
    let mut entries = 0;
    let mut last = None;
    for pair in pairs {
        let (c, a) = (&pair.c, &pair.a);
        let f = file(pair, None);
        let [x, y, z] = &mut [(); 3].map(|_| vec![0u8; FILE_ROOM]);
        let (mut p, mut q, mut r) = (0, 0, 0);
        let [ours, theirs] = race([
            &mut || p = proved::solve(black_box(&f), x).unwrap(),
            &mut || q = plain::solve_file(sweeps::solve, black_box(&f), y).unwrap(),
        ]);
        entries += same_tables(&x[..p], &y[..q]);
        let job = format!("read, solve and write, {} by {}, {name}", c.states, a.states);
        match last {
            None => {
                let [nested] = race([&mut || r = plain::solve_file(nested::solve, black_box(&f), z).unwrap()]);
                same_tables(&x[..p], &z[..r]);
                solver_row(&job, ours, theirs, nested);
            }
            Some((states, our_last, their_last)) => {
                row(&job, ours, theirs);
                let power = |times: f64| times.ln() / (c.states as f64 / states as f64).ln();
                let (x, y) = (ours / our_last, theirs / their_last);
                println!("  from {states} to {} states: proved {x:.1} times, power {:.1}; plain {y:.1} times, power {:.1}", c.states, power(x), power(y));
            }
        }
        last = Some((c.states, ours, theirs));
    }
    println!("  agreed on tables: {name}, entries {entries}");
}

pub fn at_most(name: &str, value: f64, goal: f64) {
    println!("{name:52} {value:12.2}   at most {goal}: {}", if value <= goal { "met" } else { "missed" });
}

pub fn at_least(name: &str, value: f64, goal: f64) {
    println!("{name:52} {value:12.2}   at least {goal}: {}", if value >= goal { "met" } else { "missed" });
}

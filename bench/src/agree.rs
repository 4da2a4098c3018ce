//! Compares results of the proved library with those of the plain implementation.
use crate::hoa::{self, NO_MACHINE, TEXT_ROOM};
use crate::pairs::Random;
use crate::plain::{self, Answer, Machine, Pair, Refusal, FILE_ROOM};
use crate::{nested, proved, sweeps};

// walks of a machine from a start state, of a few states, closed where a state comes back; some are damaged
fn lasso(r: &mut Random, c: &Machine) -> (Vec<u8>, Vec<u8>) {
    let pick = |r: &mut Random, m: u64| plain::bits(m).nth(r.below(m.count_ones() as usize)).unwrap_or(0);
    let mut path = vec![pick(r, c.start) as u8];
    let length = 1 + r.below(12);
    loop {
        let next = pick(r, c.successors[*path.last().unwrap() as usize]) as u8;
        let seen = path.iter().position(|&s| s == next);
        if let (Some(i), true) = (seen, path.len() >= length) {
            let mut cycle = path.split_off(i);
            if r.below(8) == 0 {
                let at = r.below(cycle.len());
                cycle[at] ^= 1 << r.below(8);
            }
            return (path, cycle);
        }
        if path.len() == 64 {
            return (path, vec![]);
        }
        path.push(next);
    }
}

pub fn file(p: &Pair, table: Option<&[u16]>) -> Vec<u8> {
    let mut out = vec![0u8; FILE_ROOM];
    let n = plain::write(p, table, &mut out);
    out.truncate(n);
    out
}

// one block's check made right again
fn mend(f: &mut [u8], block: usize) {
    let b = &mut f[512 * block..512 * block + 512];
    let s: u32 = (0..510).map(|i| (i as u32 + 1) * b[i] as u32).sum::<u32>() % 65521;
    b[510] = (s % 256) as u8;
    b[511] = (s / 256) as u8;
}

// what was said of files: carried, not carried, no table, refused; and of the texts of their machines: written, refused
#[derive(Default)]
struct Counts {
    answers: [usize; 4],
    texts: [usize; 2],
}

// the same text or the same refusal, and what is not text in the buffer as it was
fn compare_text(f: &[u8], which: usize, room: usize) -> Result<usize, Refusal> {
    let (mut x, mut y) = (vec![0xA5u8; room], vec![0xA5u8; room]);
    let a = proved::text(f, which, &mut x);
    assert_eq!(a, hoa::text_file(f, which, &mut y), "text of machine {which}");
    assert!(x == y, "text of machine {which}, the buffer");
    a
}

// both texts, or the refusal that the other calls give for the file; the call's own refusals, 1 before the reader's and 20 after them
fn compare_texts(f: &[u8], refusal: Option<Refusal>, counts: &mut [usize; 2]) {
    for (which, room) in [(0, TEXT_ROOM), (1, TEXT_ROOM + 1)] {
        let a = compare_text(f, which, room);
        assert_eq!(a.err(), refusal, "refusal of a text");
        counts[a.is_err() as usize] += 1;
    }
    for (which, room) in [(0, TEXT_ROOM - 1), (1, 0), (NO_MACHINE, TEXT_ROOM - 1)] {
        assert_eq!(compare_text(f, which, room), Err(Refusal(1, 0, 0, 0)), "a small buffer");
    }
    for which in [NO_MACHINE, usize::MAX] {
        assert_eq!(compare_text(f, which, TEXT_ROOM), Err(refusal.unwrap_or(Refusal(20, 0, 0, 0))), "no machine");
    }
}

// the same answer, and by all three solvers the same file, or the same refusal and a buffer as it was; and the same texts
fn compare(f: &[u8], counts: &mut Counts) {
    let ours = proved::console(f);
    let theirs = plain::verdict(f);
    assert_eq!(ours, theirs.number(), "console");
    let mut x = vec![0xA5u8; FILE_ROOM];
    let a = proved::solve(f, &mut x);
    for solve in [sweeps::solve, nested::solve] {
        let mut y = vec![0xA5u8; FILE_ROOM];
        assert_eq!(a, plain::solve_file(solve, f, &mut y), "solve");
        assert!(x == y, "solved file");
    }
    if a.is_err() {
        assert!(x.iter().all(|&v| v == 0xA5), "a refusal changed the buffer");
    }
    // an empty set is refused by the solver only
    compare_texts(f, a.err().filter(|e| e.0 != 21), &mut counts.texts);
    counts.answers[match theirs {
        Answer::Carried(_) => 0,
        Answer::NotCarried(..) => 1,
        Answer::NoTable => 2,
        Answer::Refused(_) => 3,
    }] += 1;
}

// what the plays were: with a run, without a table, refused; and at how many of the runs' first moves the abstract state changes, by the player's
// rule and where equal entries go to the lowest number
#[derive(Default)]
struct Plays {
    kinds: [usize; 3],
    by_rule: usize,
    by_number: usize,
}

// how many moves of each run are looked at
const MOVES: usize = 1000;

// the same run, or the same refusal and a buffer as it was
fn compare_play(f: &[u8], stem: &[u8], cycle: &[u8], plays: &mut Plays) {
    let mut x = vec![0xA5u8; plain::ROOM];
    let mut y = vec![0xA5u8; plain::ROOM];
    let a = proved::play(f, stem, cycle, &mut x);
    let b = plain::play_file(f, stem, cycle, &mut y);
    assert_eq!(a, b, "play");
    match b {
        Ok(Some((s, q))) => {
            assert!(x[..s + q] == y[..s + q], "run");
            assert!(x[s + q..].iter().all(|&v| v == 0xA5), "past the run");
            let mut t = vec![0u16; plain::ROOM];
            let (p, _) = plain::read(f, &mut t).unwrap();
            plays.by_rule += plain::changes(&p, &t, stem, cycle, MOVES, true);
            plays.by_number += plain::changes(&p, &t, stem, cycle, MOVES, false);
        }
        _ => assert!(x.iter().all(|&v| v == 0xA5), "no run, and the buffer changed"),
    }
    plays.kinds[match b {
        Ok(Some(_)) => 0,
        Ok(None) => 1,
        Err(_) => 2,
    }] += 1;
}

// whether the solver's table is carried
fn carried(p: &Pair) -> bool {
    let mut t = vec![0u16; plain::ROOM];
    sweeps::solve(p, &mut t);
    matches!(plain::check(p, &t), Answer::Carried(_))
}

// what concerns masks is drawn from h, so that the machines that r makes later, to be timed, do not depend on it
pub fn on_files(r: &mut Random, h: &mut Random) {
    let mut counts = Counts::default();
    let mut plays = Plays::default();
    let (mut masked, mut thanks_to_mask, mut empty) = (0, 0, 0);
    for round in 0..3000 {
        let mut p = r.pair(if round % 50 == 0 { 64 } else { 7 });
        // one show of three keeps its empty sets
        if round % 3 != 0 {
            p = p.filled();
        }
        h.may_hide(&mut p);
        if p.hidden != 0 {
            masked += 1;
            thanks_to_mask += (carried(&p) && !carried(&Pair::new(p.c, p.a))) as usize;
        }
        let mut t = vec![0u16; plain::ROOM];
        nested::solve(&p, &mut t);
        let mut f = match round % 4 {
            0 => file(&p, None),
            _ => file(&p, Some(&t)),
        };
        compare(&f, &mut counts);
        if p.has_empty_set() {
            empty += 1;
            assert_eq!(proved::solve(&f, &mut vec![0u8; FILE_ROOM]).map_err(|e| e.0), Err(21), "an empty set");
        }
        for _ in 0..4 {
            let (stem, cycle) = lasso(r, &p.c);
            compare_play(&f, &stem, &cycle, &mut plays);
        }
        // an entry, a bit of the mask, a byte or a length is damaged
        let entry = [0, 1, 2, 65535, 9][r.below(5)];
        let place = r.below(p.a.sets * p.c.states * p.a.states);
        if h.below(4) == 0 {
            p.hidden ^= 1 << h.below(8);
        } else {
            t[place] = entry;
        }
        let altered = file(&p, Some(&t));
        compare(&altered, &mut counts);
        let (stem, cycle) = lasso(r, &p.c);
        compare_play(&altered, &stem, &cycle, &mut plays);
        compare_play(&f, &stem, &[], &mut plays);
        compare_play(&f, &stem, &[0; 65], &mut plays);
        let at = r.below(f.len());
        f[at] ^= 1 << r.below(8);
        compare(&f, &mut counts);
        compare_play(&f, &stem, &cycle, &mut plays);
        mend(&mut f, at / 512);
        compare(&f, &mut counts);
        compare_play(&f, &stem, &cycle, &mut plays);
        f.truncate(r.below(f.len()));
        compare(&f, &mut counts);
    }
    let answers = counts.answers;
    println!("agreed: carried {}, not carried {}, no table {}, refused {}", answers[0], answers[1], answers[2], answers[3]);
    println!("agreed on shows with a hidden mask: {masked}, carried only thanks to it {thanks_to_mask}");
    println!("agreed on shows with an empty set: {empty}");
    let [run, no_table, refused] = plays.kinds;
    println!("agreed on plays: run {run}, no table {no_table}, refused {refused}");
    println!("changes of state in {} moves of these runs: {}, by the lowest number alone {}", MOVES * run, plays.by_rule, plays.by_number);
    let [written, refused] = counts.texts;
    println!("agreed on texts: {written}, refused {refused}");
}

// the texts of both machines of a show
pub fn compare_pair_texts(p: &Pair) {
    compare_texts(&file(p, None), None, &mut [0; 2]);
}

// machines of 64 states of any density and with any observations
pub fn on_texts(r: &mut Random) {
    for _ in 0..1000 {
        let [c, a] = [8, 7].map(|sets| {
            let (sets, moves, fair) = (1 + r.below(sets), r.below(17), r.below(17));
            r.machine(64, sets, 256, moves, fair)
        });
        compare_pair_texts(&Pair::new(c, a));
    }
    println!("agreed on texts of 64 states: 2000");
}

// block k of one file, put at place i of another
fn put(f: &mut [u8], i: usize, from: &[u8], k: usize) {
    f[512 * i..512 * i + 512].copy_from_slice(&from[512 * k..512 * k + 512]);
}

// Copies of files of several blocks that are badly joined, damaged or both: blocks exchanged, one put over another, one doubled with the last cut
// off, a block of another show, another number with a right check; of each also a copy with one bit changed.
pub fn on_blocks(r: &mut Random) {
    let mut counts = Counts::default();
    let mut misplaced = 0;
    let mut other = file(&r.shaped_pair(64, 64).filled(), None);
    for _ in 0..1000 {
        let (nc, na) = (12 + r.below(53), 12 + r.below(53));
        let p = r.shaped_pair(nc, na).filled();
        let mut t = vec![0u16; plain::ROOM];
        sweeps::solve(&p, &mut t);
        let good = file(&p, Some(&t));
        let blocks = good.len() / 512;
        // block i is not the last, and block k is another
        let (i, x) = (r.below(blocks - 1), r.below(other.len() / 512));
        let k = (i + 1 + r.below(blocks - 1)) % blocks;
        for kind in 0..5 {
            let mut f = good.clone();
            match kind {
                0 => {
                    put(&mut f, i, &good, k);
                    put(&mut f, k, &good, i);
                }
                1 => put(&mut f, i, &good, k),
                2 => (i + 1..blocks).for_each(|place| put(&mut f, place, &good, place - 1)),
                3 => put(&mut f, i, &other, x),
                _ => {
                    f[512 * i + r.below(2)] ^= 1 << r.below(8);
                    mend(&mut f, i);
                }
            }
            compare(&f, &mut counts);
            misplaced += (proved::console(&f) == 19) as usize;
            let at = r.below(f.len());
            f[at] ^= 1 << r.below(8);
            compare(&f, &mut counts);
            misplaced += (proved::console(&f) == 19) as usize;
        }
        other = good;
    }
    let answers = counts.answers;
    println!("agreed on bad copies: answered {}, refused {}, with 19 {misplaced}", answers[0] + answers[1] + answers[2], answers[3]);
    let [written, refused] = counts.texts;
    println!("agreed on texts of bad copies: {written}, refused {refused}");
}

// the tables of two files with the same show, entry by entry; how many entries there are
pub fn same_tables(ours: &[u8], theirs: &[u8]) -> usize {
    let (mut x, mut y) = (vec![0u16; plain::ROOM], vec![0u16; plain::ROOM]);
    let (p, table) = plain::read(ours, &mut x).expect("a file");
    assert!(table, "no table");
    assert_eq!(plain::read(theirs, &mut y), Ok((p, true)), "the show");
    let (c, a) = (&p.c, &p.a);
    for j in 0..a.sets {
        for s in 0..c.states {
            for u in 0..a.states {
                let at = (j * c.states + s) * a.states + u;
                assert_eq!(x[at], y[at], "entry of section {}, pair ({s}, {u})", j + 1);
            }
        }
    }
    a.sets * c.states * a.states
}

// the proved solver's table of a show, beside that of each of the plain solvers
pub fn compare_tables(p: &Pair) -> usize {
    let f = file(p, None);
    let (mut x, mut y) = (vec![0u8; FILE_ROOM], vec![0u8; FILE_ROOM]);
    let ours = proved::solve(&f, &mut x).expect("a show that is taken");
    let mut entries = 0;
    for solve in [sweeps::solve, nested::solve] {
        let theirs = plain::solve_file(solve, &f, &mut y).expect("a show that is taken");
        entries = same_tables(&x[..ours], &y[..theirs]);
    }
    entries
}

// the proved solver's tables beside those of both plain solvers
pub fn on_pairs(name: &str, pairs: &[Pair]) {
    let entries: usize = pairs.iter().map(compare_tables).sum();
    let masked = pairs.iter().filter(|p| p.hidden != 0).count();
    println!("agreed on tables: {name}, {masked} with a hidden mask, entries {entries}");
}

//! Compares the proved library with a plain implementation, on results and on time. All run in this process, on the same inputs.
mod agree;
mod hoa;
mod measure;
mod nested;
mod pairs;
mod plain;
mod proved;
mod sweeps;

use agree::file;
use measure::{at_least, at_most, batch, hard_family, judge, playing, solving, writing};
use pairs::{chain, first_hard, linked_chain, longest_texts, ranked_rings, rings, second_hard, Lengths, Links, Random};
use plain::Pair;

fn titles() {
    println!("{:52} {:>12}    {:>12} {:>30}", "job", "proved", "plain", "nested");
}

fn texts() {
    let largest = longest_texts();
    assert_eq!(hoa::text(&largest.c, &mut [0; hoa::TEXT_ROOM]), 15941);
    writing("64 states, largest text", &[largest; 100]);
    let mut s = Random(0x2D358DCCAA6C78A5);
    for states in [64, 8] {
        let pairs: Vec<_> = (0..1000).map(|_| Pair::new(s.machine(states, 8, 2, 1, 8), s.machine(states, 7, 2, 3, 10))).collect();
        writing(&format!("{states} states, 1000 sparse"), &pairs);
    }
}

fn main() {
    let only_texts = match std::env::args().nth(1).as_deref() {
        None => false,
        Some("texts") => true,
        Some(_) => {
            eprintln!("usage: bench/run [texts]");
            std::process::exit(2);
        }
    };
    let mut r = Random(0x9E3779B97F4A7C15);
    let mut h = Random(0x8CB92BA72F3D8DD7);
    agree::on_files(&mut r, &mut h);
    agree::on_texts(&mut Random(0x589965CC75374CC3));
    if only_texts {
        titles();
        return texts();
    }
    agree::on_blocks(&mut Random(0xA0761D6478BD642F));
    let mut q = Random(0xD1B54A32D192ED03);
    let small = |q: &mut Random| {
        let (nc, na) = (1 + q.below(9), 1 + q.below(9));
        q.shaped_pair(nc, na).filled()
    };
    let mut small: Vec<_> = (0..2000).map(|_| small(&mut q)).collect();
    small.iter_mut().for_each(|p| h.may_hide(p));
    agree::on_pairs("2000 random, to 9 by 9", &small);
    let mut altered: Vec<_> = (0..1000).map(|_| q.altered_hard_pair().filled()).collect();
    altered.iter_mut().for_each(|p| h.may_hide(p));
    agree::on_pairs("1000 altered hard ones, to 14 by 14", &altered);
    let eight: Vec<_> = (0..1000).map(|_| q.shaped_pair(8, 8).filled()).collect();
    agree::on_pairs("1000 random, 8 by 8", &eight);
    let full_size: Vec<_> = (0..1000).map(|_| q.shaped_pair(64, 64).filled()).collect();
    agree::on_pairs("1000 random, 64 by 64", &full_size);

    titles();
    let mut chain_times = f64::MAX;
    for states in [8, 16, 32, 64] {
        let p = Pair::new(r.machine(states, 8, 1, 8, 8), r.machine(states, 7, 1, 8, 12)).filled();
        let mut t = vec![0u16; plain::ROOM];
        nested::solve(&p, &mut t);
        let good = file(&p, Some(&t));
        t[0] = 65534;
        let bad = file(&p, Some(&t));
        judge(&format!("read, {states} by {states} (first entry fails)"), &bad);
        judge(&format!("read and check, {states} by {states}, dense"), &good);
        solving(&format!("read, solve and write, {states} by {states}, dense"), &p);
        let p = Pair::new(r.machine(states, 8, 2, 1, 8), r.machine(states, 7, 2, 3, 10)).filled();
        nested::solve(&p, &mut t);
        judge(&format!("read and check, {states} by {states}, sparse"), &file(&p, Some(&t)));
        solving(&format!("read, solve and write, {states} by {states}, sparse"), &p);
        let p = chain(states, 8, 7);
        nested::solve(&p, &mut t);
        judge(&format!("read and check, {states} by {states}, chain"), &file(&p, Some(&t)));
        let times = solving(&format!("read, solve and write, {states} by {states}, chain"), &p);
        if states == 64 {
            chain_times = times;
        }
    }
    // by the number of sets, by which an entry's l and k are found
    let mut s = Random(0xE7037ED1A0B428DB);
    let mut t = vec![0u16; plain::ROOM];
    for sets in [3, 5, 7, 8] {
        let dense = Pair::new(s.machine(64, sets, 1, 8, 8), s.machine(64, 7, 1, 8, 12)).filled();
        let sparse = Pair::new(s.machine(64, sets, 2, 1, 8), s.machine(64, 7, 2, 3, 10)).filled();
        for (name, p) in [("dense", dense), ("sparse", sparse), ("ranked", ranked_rings(sets, 7))] {
            agree::compare_tables(&p);
            nested::solve(&p, &mut t);
            judge(&format!("read and check, 64 by 64, {name}, m = {sets}"), &file(&p, Some(&t)));
        }
    }
    let p = rings(8, 7);
    agree::compare_tables(&p);
    nested::solve(&p, &mut t);
    let f = file(&p, Some(&t));
    let round: Vec<u8> = (0..64).collect();
    judge("read and check, 64 by 64, rings", &f);
    playing("read, check and play, 64 by 64, rings", &f, &[], &round);
    texts();

    let (full_ratio, full_times) = batch("64 by 64, 1000 random", &full_size);
    let (eight_ratio, eight_times) = batch("8 by 8, 1000 random", &eight);
    for (name, links) in [("last link", Links::Last), ("all links", Links::All), ("fourth links", Links::Fourths)] {
        let p = linked_chain(links);
        chain_times = chain_times.min(solving(&format!("read, solve and write, 64 by 64, chain, {name}"), &p));
    }
    // coprime lengths, of those that are dearest to nested iteration
    let lengths = |x, x2, y, y2| Lengths { x, x2, y, y2 };
    let first = [(1, lengths(9, 5, 4, 8)), (3, lengths(20, 10, 9, 19)), (8, lengths(38, 24, 23, 37))];
    hard_family("first hard family", &first.map(|(wait, l)| first_hard(l, Some(wait), 8, 7)));
    let second = [lengths(9, 5, 2, 7), lengths(19, 11, 8, 17), lengths(39, 23, 22, 35)];
    hard_family("second hard family", &second.map(|l| second_hard(l, 8, 7)));

    println!("goals");
    at_most("proved / plain, 64 by 64, random", full_ratio, 1.3);
    at_most("proved / plain, 8 by 8, random", eight_ratio, 1.5);
    at_least("nested / proved, 64 by 64, random", full_times, 10.0);
    at_least("nested / proved, 64 by 64, least of the chains", chain_times, 100.0);
    at_least("nested / proved, 8 by 8, random", eight_times, 1.0);
}

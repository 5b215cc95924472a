//! How long just's parser and ours take: one driver, the same lines, the same tree.
#[cfg(library)]
use crate::line;
use crate::{
    fixed,
    image::Tree,
    judge::Judge,
    just::{InvocationParser, Justfile},
    side::Side,
};
use std::{hint::black_box, time::Instant};

/// Each figure is the best of so many runs.
const RUNS: usize = 15;
const NANOSECONDS_OF_A_RUN: f64 = 20e6;

pub fn run() {
    let tree = fixed::example();
    println!("| line | just ns | ours ns | ours / just | admit ns |\n|---|---:|---:|---:|---:|");
    for (name, words) in lines() {
        let just = time_just(&tree, &words);
        match time_ours(&tree, &words) {
            Some((ours, admit)) => println!("| {name} | {just:.0} | {ours:.0} | {:.2} | {admit:.0} |", ours / just),
            None => println!("| {name} | {just:.0} | | | |"),
        }
    }
}

fn lines() -> Vec<(String, Vec<&'static str>)> {
    let mut lines = vec![
        ("short order: `lower 3 --by 10`".into(), vec!["lower", "3", "--by", "10"]),
        ("32 orders: `lower 3 --by 10`, 32 times".into(), ["lower", "3", "--by", "10"].repeat(32)),
        ("refused: `lower 3 --by=10 --by=10`".into(), vec!["lower", "3", "--by=10", "--by=10"]),
        ("refused, with a suggestion in just: `lowwer`".into(), vec!["lowwer"]),
    ];
    for words in [16, 32, 64, 128] {
        let name = format!("one order of {words} words: `e raise` and gates");
        lines.push((name, [vec!["e", "raise"], vec!["12"; words - 2]].concat()));
    }
    lines
}

fn time_just(tree: &Tree, words: &[&str]) -> f64 {
    let side = Side::new(tree, Judge::Either);
    best(|rounds| (0..rounds).for_each(|_| parse(side.root(), words)))
}

/// just is handed its words, as by the operating system; ours is handed a line that is already cut.
fn parse(root: &Justfile, words: &[&str]) {
    let _ = black_box(InvocationParser::parse_invocations(black_box(root), black_box(words)));
}

/// Reading alone, and a console's admit with the withdraw that makes room for the next.
#[cfg(library)]
fn time_ours(tree: &Tree, words: &[&str]) -> Option<(f64, f64)> {
    let (image, line) = (tree.encode(), line::join(words));
    Some((best(|rounds| repeat(&image, &line, rounds)), best(|rounds| admit(&image, &line, rounds))))
}

#[cfg(library)]
fn admit(image: &[u8], line: &[u8], rounds: u64) {
    let line = black_box(line);
    black_box(crate::product::Library::admit(image, Judge::Either, line, rounds));
}

#[cfg(library)]
fn repeat(image: &[u8], line: &[u8], rounds: u64) {
    let line = black_box(line);
    black_box(crate::product::Library::repeat(image, Judge::Either, line, rounds));
}

#[cfg(not(library))]
fn time_ours(_tree: &Tree, _words: &[&str]) -> Option<(f64, f64)> {
    None
}

/// Nanoseconds of one round, in the best of the runs.
fn best(run: impl Fn(u64)) -> f64 {
    let mut rounds = 1;
    while nanoseconds(&run, rounds) < NANOSECONDS_OF_A_RUN {
        rounds *= 2;
    }
    let times = (0..RUNS).map(|_| nanoseconds(&run, rounds) / rounds as f64);
    times.fold(f64::INFINITY, f64::min)
}

fn nanoseconds(run: &impl Fn(u64), rounds: u64) -> f64 {
    let start = Instant::now();
    run(rounds);
    start.elapsed().as_nanos() as f64
}

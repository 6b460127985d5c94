//! The benchmark: see bench/run. Prints tables in markdown; ends with 1 where two programs disagree, before anything is timed.

mod library;
mod placement;
mod plain;
mod selftest;
mod solver;
mod tuned;
mod windows;

use placement::Placed;
use solver::Solver;
use std::path::PathBuf;
use std::time::Instant;
use tuned::Tuned;
use windows::{Dice, Kind, KINDS};

/// Of each window the best time of so many.
const ROUNDS: usize = 3;
/// What fills a lent slice before a call, to see what the call leaves.
const PAINT: u8 = 0xa5;
/// Bytes that hold every polygraph.
const ROOM: usize = 130 + 10 * 4096;

/// What a program says of a log: its number, the order and the table, both as they were unless the number is 0.
#[derive(PartialEq, Clone, Debug)]
pub struct Answer {
    pub number: u32,
    pub order: [u8; 40],
    pub table: [u8; 80],
}

impl Answer {
    pub fn blank(number: u32) -> Answer {
        Answer { number, order: [PAINT; 40], table: [PAINT; 80] }
    }
}

pub fn by_tuned(tuned: &mut Tuned, log: &[u8]) -> Answer {
    let mut answer = Answer::blank(0);
    answer.number = tuned.decide(log, &mut answer.order, &mut answer.table);
    answer
}

pub fn by_library(log: &[u8], encoding: u8, pruning: u8) -> Answer {
    let mut answer = Answer::blank(0);
    answer.number = library::decide(log, encoding, pruning, &mut answer.order, &mut answer.table);
    answer
}

/// None where the search gave up.
pub fn by_placement(log: &[u8]) -> Option<Answer> {
    let mut answer = Answer::blank(0);
    match placement::decide(log, &mut answer.order, &mut answer.table) {
        Placed::Order => Some(answer),
        Placed::NoOrder => Some(Answer::blank(255)),
        Placed::GaveUp => None,
    }
}

/// Ends the program where two answers differ.
pub fn same<T: PartialEq + std::fmt::Debug>(what: &str, log: &[u8], one: &T, other: &T) {
    if one != other {
        let hex: String = log.iter().map(|b| format!("{b:02x}")).collect();
        eprintln!("bench: {what} disagree on the log {hex}\n  {one:?}\n  {other:?}");
        std::process::exit(1);
    }
}

/// Is the library's polygraph the one of document 01's words, with nothing written behind it?
pub fn same_polygraph(log: &[u8], encoding: u8, pruning: u8, out: &mut [u8]) {
    let right = plain::history(log).polygraph(encoding, pruning).bytes();
    out.fill(PAINT);
    same("encode and document 01's words", log, &0, &library::encode(log, encoding, pruning, out));
    same("encode and document 01's words", log, &&out[..right.len()], &&right[..]);
    same("encode and the bytes behind", log, &true, &out[right.len()..].iter().all(|&b| b == PAINT));
}

/// Times in microseconds, ascending.
struct Times(Vec<f64>);

impl Times {
    fn of(mut times: Vec<f64>) -> Times {
        times.sort_by(f64::total_cmp);
        Times(times)
    }

    fn mean(&self) -> f64 {
        self.0.iter().sum::<f64>() / self.0.len() as f64
    }

    fn worst(&self) -> f64 {
        self.0[self.0.len() - 1]
    }

    /// Mean, 99th percentile and worst.
    fn cells(&self) -> String {
        let percentile = self.0[(self.0.len() * 99).div_ceil(100) - 1];
        format!("{} | {} | {}", figure(self.mean()), figure(percentile), figure(self.worst()))
    }
}

/// Three digits or more; a comma before each three.
fn figure(x: f64) -> String {
    let digits = if x < 10.0 {
        2
    } else if x < 100.0 {
        1
    } else {
        0
    };
    if x < 1000.0 {
        return format!("{x:.digits$}");
    }
    let whole = format!("{x:.0}");
    let (front, back) = whole.split_at(whole.len() - 3);
    format!("{},{back}", if front.len() > 3 { figure(front.parse().unwrap()) } else { front.into() })
}

fn timed(call: impl FnOnce() -> u32) -> f64 {
    let start = Instant::now();
    std::hint::black_box(call());
    start.elapsed().as_nanos() as f64 / 1000.0
}

/// Rounds over all logs, each with every call, one right after the other; for each call the best time by log.
fn interleaved(logs: &[Vec<u8>], calls: &mut [&mut dyn FnMut(usize, &[u8]) -> u32]) -> Vec<Times> {
    let mut best = vec![vec![f64::MAX; logs.len()]; calls.len()];
    for _ in 0..ROUNDS {
        for (i, log) in logs.iter().enumerate() {
            for (call, best) in calls.iter_mut().zip(&mut best) {
                best[i] = best[i].min(timed(|| call(i, std::hint::black_box(log))));
            }
        }
    }
    best.into_iter().map(Times::of).collect()
}

fn head(columns: &str) {
    println!("{columns}");
    println!("{}|", "| --- ".repeat(columns.matches('|').count() - 1));
}

/// Windows of a kind with so many transactions.
struct Set {
    kind: Kind,
    name: String,
    count: usize,
    logs: Vec<Vec<u8>>,
    orders: usize,
    /// Of the first part, where the placement search gave up.
    gave_up: usize,
    /// For the first few, the question to a solver.
    files: Vec<PathBuf>,
}

/// The first part, for the placement search.
fn part(set: &Set) -> &[Vec<u8>] {
    &set.logs[..set.logs.len() / 20]
}

/// Every program's answers on the windows of a set.
fn compare(set: &mut Set, tuned: &mut Tuned, solvers: &[Solver]) {
    let serial = matches!(set.kind, Kind::Serial | Kind::Chains);
    let mut answers = Vec::new();
    for log in &set.logs {
        let answer = by_tuned(tuned, log);
        if answer.number != 255 || serial {
            same("a window and its answer", log, &0, &answer.number);
        }
        if library::PRESENT {
            same("checker and tuned Rust", log, &by_library(log, 2, 1), &answer);
        }
        if answer.number == 0 {
            set.orders += 1;
            let order = &answer.order[..set.count];
            let numbers: Vec<usize> = order.iter().map(|&t| t as usize).collect();
            same("order and replay", log, &true, &plain::history(log).legal(&numbers).is_some());
            if library::PRESENT {
                same("order and check", log, &0, &library::check(log, order));
            }
        }
        answers.push(answer);
    }
    let mut gave_up = 0;
    for (log, answer) in part(set).iter().zip(&answers) {
        match by_placement(log) {
            Some(placed) => same("placement search and tuned Rust", log, &placed, answer),
            None => gave_up += 1,
        }
    }
    set.gave_up = gave_up;
    for solver in solvers {
        for ((file, log), answer) in set.files.iter().zip(&set.logs).zip(&answers) {
            same(&format!("{} and tuned Rust", solver.name), log, &solver.run(file).0, &(answer.number == 0));
        }
    }
}

fn time_decisions(sets: &[Set], tuned: &mut Tuned) {
    println!("Microseconds from the log's bytes to order and table, encoding 2, pruning 1; of each window the best of {ROUNDS} calls.\n");
    head("| T | kind | windows | order | no order | checker: mean | 99th | worst | tuned Rust: mean | 99th | worst | ratio |");
    for set in sets {
        let (mut order, mut table) = ([0; 32], [0; 64]);
        let mut by_tuned = |_: usize, log: &[u8]| tuned.decide(log, &mut order, &mut table);
        let (mut order, mut table) = ([0; 32], [0; 64]);
        let mut by_library = |_: usize, log: &[u8]| library::decide(log, 2, 1, &mut order, &mut table);
        let (checker, plain, ratio) = if library::PRESENT {
            let times = interleaved(&set.logs, &mut [&mut by_library, &mut by_tuned]);
            (times[0].cells(), times[1].cells(), figure(times[0].mean() / times[1].mean()))
        } else {
            ("- | - | -".into(), interleaved(&set.logs, &mut [&mut by_tuned])[0].cells(), "-".into())
        };
        let all = set.logs.len();
        println!("| {} | {} | {all} | {} | {} | {checker} | {plain} | {ratio} |", set.count, set.name, set.orders, all - set.orders);
    }
}

fn time_placement(sets: &[Set]) {
    println!(
        "\nThe placement search, on a twentieth of the windows, the best of {ROUNDS}. It gives up after {} placements.\n",
        figure(placement::CAP as f64)
    );
    head("| T | kind | windows | gave up | mean | 99th | worst |");
    for set in sets {
        let (mut order, mut table) = ([0; 32], [0; 64]);
        let mut search = |_: usize, log: &[u8]| placement::decide(log, &mut order, &mut table) as u32;
        let times = interleaved(part(set), &mut [&mut search]);
        println!("| {} | {} | {} | {} | {} |", set.count, set.name, part(set).len(), set.gave_up, times[0].cells());
    }
}

fn time_solver(sets: &[Set], solver: &Solver, trivial: &PathBuf) {
    println!("\n{}: only whether an order exists. One run of the process on a prepared file, the best of {ROUNDS}.", solver.name);
    println!("Net is the mean less that of the process on a file of one clause, run in turn with it.\n");
    head("| T | kind | windows | mean | net | worst |");
    for set in sets {
        let both = |file: &PathBuf| {
            (0..ROUNDS).fold((f64::MAX, f64::MAX), |(one, other), _| (one.min(solver.run(file).1), other.min(solver.run(trivial).1)))
        };
        let (times, starts): (Vec<f64>, Vec<f64>) = set.files.iter().map(both).unzip();
        let (times, starts) = (Times::of(times), Times::of(starts));
        let net = (times.mean() - starts.mean()).max(0.0);
        let cells = format!("{} | {} | {}", figure(times.mean()), figure(net), figure(times.worst()));
        println!("| {} | {} | {} | {cells} |", set.count, set.name, set.files.len());
    }
}

fn time_full(full: &[Vec<u8>], backed: &[Vec<u8>], tuned: &mut Tuned) {
    println!("\nFull windows: 1,156 bytes, T = 32, N = 256, 8 keys, of a serial run. {} windows, the best of {ROUNDS} calls each.", full.len());
    println!("Those read back have 160 operations and read-backs of their writes, up to 256 in all.\n");
    head("| call | constraints before | left | mean | 99th | worst |");
    let row = |name: &str, counts: &str, times: &Times| println!("| {name} | {counts} | {} |", times.cells());
    let (mut order, mut table) = ([0; 32], [0; 64]);
    let mut by_tuned = |_: usize, log: &[u8]| tuned.decide(log, &mut order, &mut table);
    if !library::PRESENT {
        row("decide, tuned Rust", "- | -", &interleaved(full, &mut [&mut by_tuned])[0]);
        row("decide, tuned Rust, read back", "- | -", &interleaved(backed, &mut [&mut by_tuned])[0]);
        return;
    }
    let (mut order, mut table) = ([0; 32], [0; 64]);
    let mut by_library = |_: usize, log: &[u8]| library::decide(log, 2, 1, &mut order, &mut table);
    let times = interleaved(full, &mut [&mut by_library, &mut by_tuned]);
    row("decide", "- | -", &times[0]);
    row("decide, tuned Rust", "- | -", &times[1]);
    let times = interleaved(backed, &mut [&mut by_library, &mut by_tuned]);
    row("decide, read back", "- | -", &times[0]);
    row("decide, tuned Rust, read back", "- | -", &times[1]);

    let mut refused = full.to_vec();
    refused.iter_mut().for_each(|log| log[1152] = 2);
    refused.iter().for_each(|log| same("a bad kind and its number", log, &7, &by_library(0, log)));
    row("load, refused at the last body", "- | -", &interleaved(&refused, &mut [&mut by_library])[0]);

    for (name, logs) in [("check of the legal order", full), ("check of the legal order, read back", backed)] {
        let orders: Vec<Answer> = logs.iter().map(|log| crate::by_library(log, 2, 1)).collect();
        let mut check = |i: usize, log: &[u8]| library::check(log, &orders[i].order[..32]);
        logs.iter().enumerate().for_each(|(i, log)| same("order and check", log, &0, &check(i, log)));
        row(name, "- | -", &interleaved(logs, &mut [&mut check])[0]);
    }

    let mut out = vec![0; ROOM];
    for (encoding, pruning) in selftest::SETTINGS {
        let mut count = |pruning: u8| {
            let counts = full.iter().map(|log| {
                library::encode(log, encoding, pruning, &mut out);
                u16::from_le_bytes([out[0], out[1]]) as f64
            });
            figure(counts.sum::<f64>() / full.len() as f64)
        };
        let counts = format!("{} | {}", count(0), count(pruning));
        let times = interleaved(full, &mut [&mut |_, log| library::encode(log, encoding, pruning, &mut out)]);
        row(&format!("encode, encoding {encoding}, pruning {pruning}"), &counts, &times[0]);
    }
}

fn main() {
    let words: Vec<String> = std::env::args().skip(1).collect();
    let (share, asked) = match words.iter().map(String::as_str).collect::<Vec<_>>()[..] {
        [] => (1, 20),
        ["--quick"] => (10, 5),
        ["--selftest"] => return selftest::run(),
        _ => {
            eprintln!("usage: bench/run [--quick | --selftest]");
            std::process::exit(2);
        }
    };
    let folder = std::env::var_os("BENCH_FOLDER").map_or(std::env::temp_dir(), PathBuf::from);
    let write = |name: String, text: String| {
        let file = folder.join(name);
        std::fs::write(&file, text).expect("the folder takes a file");
        file
    };
    let solvers = solver::installed();
    let mut tuned = Tuned::new();

    let mut sets = Vec::new();
    for count in [8, 16, 24, 32] {
        for (k, (kind, name)) in KINDS.into_iter().enumerate() {
            let mut dice = Dice::new((count * 10 + k) as u64);
            let many = if count == 32 { 10_000 } else { 2_000 } / share;
            let logs: Vec<Vec<u8>> = (0..many).map(|_| windows::log(&windows::window(kind, count, &mut dice))).collect();
            sets.push(Set { kind, name: name.into(), count, logs, orders: 0, gave_up: 0, files: Vec::new() });
        }
    }
    // the windows of 32 transactions again, with read-backs from dice of their own
    for (k, (kind, name)) in KINDS.into_iter().enumerate() {
        let (mut dice, mut backs) = (Dice::new((320 + k) as u64), Dice::new((5000 + k) as u64));
        let logs = (0..10_000 / share).map(|_| windows::log(&windows::backed(kind, 32, &mut dice, &mut backs))).collect();
        sets.push(Set { kind, name: format!("{name}, read back"), count: 32, logs, orders: 0, gave_up: 0, files: Vec::new() });
    }
    for (s, set) in sets.iter_mut().enumerate() {
        let questions = set.logs.iter().take(if solvers.is_empty() { 0 } else { asked }).enumerate();
        set.files = questions.map(|(i, log)| write(format!("{s}-{i}.cnf"), solver::question(log))).collect();
    }
    let mut dice = Dice::new(1);
    let full: Vec<Vec<u8>> = (0..1_000 / share).map(|_| windows::log(&windows::full(&mut dice))).collect();
    let mut dice = Dice::new(6);
    let backed: Vec<Vec<u8>> = (0..1_000 / share).map(|_| windows::log(&windows::full_backed(&mut dice))).collect();

    sets.iter_mut().for_each(|set| compare(set, &mut tuned, &solvers));
    if library::PRESENT {
        let mut out = vec![0; ROOM];
        for log in full.iter().take(200).chain(backed.iter().take(200)) {
            same("checker and tuned Rust", log, &by_library(log, 2, 1), &by_tuned(&mut tuned, log));
            selftest::SETTINGS.iter().for_each(|&(encoding, pruning)| same_polygraph(log, encoding, pruning, &mut out));
        }
    }
    println!("{} windows: verdict, order and table are the same in all programs.\n", figure(sets.iter().map(|s| s.logs.len()).sum::<usize>() as f64));

    time_decisions(&sets, &mut tuned);
    time_full(&full, &backed, &mut tuned);
    time_placement(&sets);
    let trivial = write("trivial.cnf".into(), solver::TRIVIAL.into());
    solvers.iter().for_each(|solver| time_solver(&sets, solver, &trivial));
}

//! The same question put to a SAT solver, as a process: a variable for each pair of transactions (which comes first), transitivity, the
//! known edges of encoding 2 as units, and a variable for each constraint that implies all edges of side A, or else all of side B.

use crate::plain::{self, members, Side};
use std::fmt::Write;
use std::path::Path;
use std::process::{Command, Stdio};
use std::time::Instant;

/// Those that are looked for on PATH, with the words that make them quiet.
const SOLVERS: [(&str, &[&str]); 2] = [("minisat", &["-verb=0"]), ("cadical", &["-q", "-n"])];

pub struct Solver {
    pub name: &'static str,
    words: &'static [&'static str],
}

pub fn installed() -> Vec<Solver> {
    let path = std::env::var_os("PATH").unwrap_or_default();
    let folders: Vec<_> = std::env::split_paths(&path).collect();
    SOLVERS.into_iter().filter(|(name, _)| folders.iter().any(|f| f.join(name).is_file())).map(|(name, words)| Solver { name, words }).collect()
}

impl Solver {
    /// One run on a file: whether it says yes, and the microseconds from the start of the process to its end.
    pub fn run(&self, file: &Path) -> (bool, f64) {
        let start = Instant::now();
        let status = Command::new(self.name).args(self.words).arg(file).stdin(Stdio::null()).stdout(Stdio::null()).stderr(Stdio::null()).status();
        let time = start.elapsed().as_nanos() as f64 / 1000.0;
        match status.map(|s| s.code()) {
            Ok(Some(10)) => (true, time),
            Ok(Some(20)) => (false, time),
            other => {
                eprintln!("bench: {} ended with {other:?} on {}", self.name, file.display());
                std::process::exit(1);
            }
        }
    }
}

pub const TRIVIAL: &str = "p cnf 1 1\n1 0\n";

/// The question of a log that Load takes, in DIMACS form.
pub fn question(log: &[u8]) -> String {
    let history = plain::history(log);
    let count = history.count();
    let polygraph = history.polygraph(2, 0);
    // i before j
    let first = |i: usize, j: usize| {
        let pair = |i: usize, j: usize| (j * (j - 1) / 2 + i + 1) as i32;
        if i < j {
            pair(i, j)
        } else {
            -pair(j, i)
        }
    };
    let pairs = count * count.saturating_sub(1) / 2;
    let mut text = String::new();
    let mut clauses = 0;
    let mut clause = |literals: &[i32]| {
        for literal in literals {
            write!(text, "{literal} ").unwrap();
        }
        text.push_str("0\n");
        clauses += 1;
    };
    for k in 0..count {
        for j in 0..k {
            for i in 0..j {
                clause(&[-first(i, j), -first(j, k), -first(k, i)]);
                clause(&[-first(i, k), -first(k, j), -first(j, i)]);
            }
        }
    }
    let spare = (pairs + polygraph.list.len() + 1) as i32;
    for (u, row) in polygraph.rows.into_iter().enumerate() {
        for v in members(row) {
            if u == v {
                clause(&[spare]);
                clause(&[-spare]);
            } else {
                clause(&[first(u, v)]);
            }
        }
    }
    for (n, c) in polygraph.list.iter().enumerate() {
        let choice = (pairs + n + 1) as i32;
        let mut side = |unless: i32, side: Side| members(side.sources).for_each(|s| clause(&[unless, first(s, side.target)]));
        side(-choice, c.a);
        side(choice, c.b);
    }
    format!("p cnf {spare} {clauses}\n{text}")
}

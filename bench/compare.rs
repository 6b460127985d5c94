//! The calls of several builds of the library, on the same windows in one process: see bench/compare. Each window goes to every build in turn, and of each window
//! the best time counts. Where code and stack come to lie changes times by some percent, from process to process and by which build is opened first; so several
//! processes are run, which open the builds in turn, and the table has, of each build, the least of their means and the median of their ratios to the first build.

#[allow(dead_code)]
mod windows;

use std::ffi::{c_char, c_int, c_void, CString};
use std::process::Command;
use std::time::Instant;
use windows::{Dice, KINDS};

/// How many processes, and of each window the best time of so many.
const PROCESSES: usize = 12;
const ROUNDS: usize = 5;
/// Bytes that hold every polygraph.
const ROOM: usize = 130 + 10 * 4096;

extern "C" {
    fn dlopen(file: *const c_char, flags: c_int) -> *mut c_void;
    fn dlsym(library: *mut c_void, name: *const c_char) -> *mut c_void;
}

type Decide = unsafe extern "C" fn(*const u8, usize, u8, u8, *mut u8, usize, *mut u8, usize) -> u32;
type Encode = unsafe extern "C" fn(*const u8, usize, u8, u8, *mut u8, usize) -> u32;
type Check = unsafe extern "C" fn(*const u8, usize, *const u8, usize) -> u32;

struct Build {
    decide: Decide,
    encode: Encode,
    check: Check,
}

impl Build {
    fn open(file: &str) -> Build {
        unsafe {
            let now = 2; // RTLD_NOW
            let library = dlopen(CString::new(file).unwrap().as_ptr(), now);
            assert!(!library.is_null(), "{file} can't be opened");
            let find = |name: &str| {
                let function = dlsym(library, CString::new(name).unwrap().as_ptr());
                assert!(!function.is_null(), "{file} has no {name}");
                function
            };
            Build {
                decide: std::mem::transmute::<*mut c_void, Decide>(find("beaconcrumb_decide")),
                encode: std::mem::transmute::<*mut c_void, Encode>(find("beaconcrumb_encode")),
                check: std::mem::transmute::<*mut c_void, Check>(find("beaconcrumb_check")),
            }
        }
    }

    fn decide(&self, log: &[u8], order: &mut [u8], table: &mut [u8]) -> u32 {
        unsafe { (self.decide)(log.as_ptr(), log.len(), 2, 1, order.as_mut_ptr(), order.len(), table.as_mut_ptr(), table.len()) }
    }

    fn encode(&self, log: &[u8], encoding: u8, pruning: u8, out: &mut [u8]) -> u32 {
        unsafe { (self.encode)(log.as_ptr(), log.len(), encoding, pruning, out.as_mut_ptr(), out.len()) }
    }

    fn check(&self, log: &[u8], order: &[u8]) -> u32 {
        unsafe { (self.check)(log.as_ptr(), log.len(), order.as_ptr(), order.len()) }
    }
}

/// One row: the mean of each build's best times, in microseconds. The builds take turns in being first.
fn row(name: &str, builds: &[Build], logs: &[Vec<u8>], mut call: impl FnMut(&Build, usize, &[u8]) -> u32) {
    let mut best = vec![vec![f64::MAX; logs.len()]; builds.len()];
    for round in 0..ROUNDS {
        for (i, log) in logs.iter().enumerate() {
            for k in 0..builds.len() {
                let b = (k + round) % builds.len();
                let start = Instant::now();
                std::hint::black_box(call(&builds[b], i, std::hint::black_box(log)));
                best[b][i] = best[b][i].min(start.elapsed().as_nanos() as f64 / 1000.0);
            }
        }
    }
    let means: Vec<String> = best.iter().map(|times| format!("{}", times.iter().sum::<f64>() / times.len() as f64)).collect();
    println!("{name}\t{}", means.join("\t"));
}

/// The rows of one process.
fn measure(files: &[String]) {
    let builds: Vec<Build> = files.iter().map(|file| Build::open(file)).collect();
    let (mut order, mut table, mut out) = ([0; 32], [0; 64], vec![0; ROOM]);
    let mut sets: Vec<(String, Vec<Vec<u8>>)> = Vec::new();
    for (count, many) in [(8, 300), (32, 400)] {
        for (k, (kind, name)) in KINDS.into_iter().enumerate() {
            let mut dice = Dice::new((count * 10 + k) as u64);
            sets.push((format!("T = {count}, {name}"), (0..many).map(|_| windows::log(&windows::window(kind, count, &mut dice))).collect()));
        }
    }
    let mut dice = Dice::new(1);
    sets.push(("full windows".into(), (0..60).map(|_| windows::log(&windows::full(&mut dice))).collect()));
    for (name, logs) in &sets {
        row(&format!("decide, {name}"), &builds, logs, |build, _, log| build.decide(log, &mut order, &mut table));
    }
    for (name, logs) in [&sets[0], &sets[12]] {
        let orders: Vec<[u8; 32]> = logs.iter().map(|log| { let mut order = [0; 32]; builds[0].decide(log, &mut order, &mut [0; 64]); order }).collect();
        row(&format!("check, {name}"), &builds, logs, |build, i, log| build.check(log, &orders[i][..log[0] as usize]));
        for (encoding, pruning) in [(0, 0), (0, 1), (1, 0), (1, 1), (2, 0), (2, 1)] {
            row(&format!("encode {encoding} {pruning}, {name}"), &builds, logs, |build, _, log| build.encode(log, encoding, pruning, &mut out));
        }
    }
}

fn median(mut numbers: Vec<f64>) -> f64 {
    numbers.sort_by(f64::total_cmp);
    numbers[numbers.len() / 2]
}

fn main() {
    let words: Vec<String> = std::env::args().skip(1).collect();
    if words.first().is_some_and(|word| word == "--measure") {
        return measure(&words[1..]);
    }
    // by row, by process, by build
    let mut rows: Vec<(String, Vec<Vec<f64>>)> = Vec::new();
    for process in 0..PROCESSES {
        let turn = process % words.len();
        let turned: Vec<&String> = words[turn..].iter().chain(&words[..turn]).collect();
        let said = Command::new(std::env::current_exe().unwrap()).arg("--measure").args(&turned).output().expect("a process of its own");
        assert!(said.status.success(), "{}", String::from_utf8_lossy(&said.stderr));
        for (i, line) in String::from_utf8(said.stdout).unwrap().lines().enumerate() {
            let mut parts = line.split('\t');
            let name = parts.next().unwrap().to_string();
            if process == 0 {
                rows.push((name, Vec::new()));
            }
            let mut means: Vec<f64> = parts.map(|part| part.parse().unwrap()).collect();
            means.rotate_right(turn);
            rows[i].1.push(means);
        }
    }
    println!("Microseconds: of {PROCESSES} processes the least mean, and the median of the ratios to the first build.\n");
    let heads: Vec<String> = words.iter().enumerate().map(|(b, word)| if b == 0 { word.clone() } else { format!("{word} | ratio") }).collect();
    println!("| call | {} |", heads.join(" | "));
    println!("{}|", "| --- ".repeat(2 * words.len()));
    for (name, means) in &rows {
        let cells: Vec<String> = (0..words.len())
            .map(|b| {
                let least = means.iter().map(|m| m[b]).fold(f64::MAX, f64::min);
                if b == 0 { format!("{least:.3}") } else { format!("{least:.3} | {:.3}", median(means.iter().map(|m| m[b] / m[0]).collect())) }
            })
            .collect();
        println!("| {name} | {} |", cells.join(" | "));
    }
}

//! Are the programs that the checker is held against right? Against all permutations, document 01's histories, and the words of document 01 and cards 1, 3 and 5.

use crate::tuned::Tuned;
use crate::windows::{self, Dice, Kind, KINDS};
use crate::{by_library, by_placement, by_tuned, library, plain, same, same_polygraph, Answer, ROOM};

pub const SETTINGS: [(u8, u8); 6] = [(0, 0), (0, 1), (1, 0), (1, 1), (2, 0), (2, 1)];

fn right(history: &plain::History, first: Option<Vec<usize>>) -> Answer {
    let Some(order) = first else { return Answer::blank(255) };
    let mut answer = Answer::blank(0);
    let table = history.legal(&order).expect("it is legal");
    order.iter().enumerate().for_each(|(place, &t)| answer.order[place] = t as u8);
    table.iter().enumerate().for_each(|(key, value)| answer.table[2 * key..2 * key + 2].copy_from_slice(&value.to_le_bytes()));
    answer
}

/// Small histories against a search through all permutations; every program, in every setting where it has them. `backs` is the seed by which writes are
/// read back; with 0 none is.
fn permutations(tuned: &mut Tuned, backs: u64) {
    let mut dice = Dice::new(2);
    let mut back = Dice::new(backs);
    let mut orders = 0;
    let many = 20_000;
    let mut out = vec![0; 2000];
    for _ in 0..many {
        let mut transactions = windows::small(&mut dice);
        if backs != 0 {
            windows::read_back(&mut transactions, 2, &mut back);
        }
        let log = windows::log(&transactions);
        let history = plain::history(&log);
        let answer = right(&history, history.first_of_all());
        orders += (answer.number == 0) as usize;
        same("tuned Rust and all permutations", &log, &by_tuned(tuned, &log), &answer);
        if let Some(placed) = by_placement(&log) {
            same("placement search and all permutations", &log, &placed, &answer);
        }
        for encoding in 0..3 {
            same("plain walks and all permutations", &log, &right(&history, history.first_by_walks(encoding)), &answer);
        }
        if library::PRESENT {
            for (encoding, pruning) in SETTINGS {
                same("checker and all permutations", &log, &by_library(&log, encoding, pruning), &answer);
                same_polygraph(&log, encoding, pruning, &mut out);
            }
        }
    }
    let with = if backs == 0 { "" } else { " with read-backs" };
    println!("{many} small histories{with} against all permutations: {orders} with an order, {} without; all the same", many - orders);
}

/// Windows with read-backs against the same windows without, and against the words: every program gives the same answer to both.
fn backed(tuned: &mut Tuned) {
    let (mut many, mut found) = (0, 0);
    let mut out = vec![0; ROOM];
    for count in [5, 8, 16, 24, 32] {
        for (k, (kind, _)) in KINDS.into_iter().enumerate() {
            let seed = (2000 + count * 10 + k) as u64;
            let (mut dice, mut again, mut backs) = (Dice::new(seed), Dice::new(seed), Dice::new(seed + 1000));
            for i in 0..200 {
                let without = windows::log(&windows::window(kind, count, &mut dice));
                let log = windows::log(&windows::backed(kind, count, &mut again, &mut backs));
                same("a window with read-backs and its number", &log, &plain::number(&log), &0);
                let answer = by_tuned(tuned, &log);
                same("a window with read-backs and the same without", &log, &answer, &by_tuned(tuned, &without));
                if i < 10 {
                    let history = plain::history(&log);
                    same("read-backs and plain walks", &log, &right(&history, history.first_by_walks(i % 3)), &answer);
                }
                let bytes = |log: &[u8], (encoding, pruning)| plain::history(log).polygraph(encoding, pruning).bytes();
                let setting = SETTINGS[i as usize % 6];
                same("the polygraph with read-backs and the one without", &log, &bytes(&log, setting), &bytes(&without, setting));
                if library::PRESENT {
                    same("checker and tuned Rust, read-backs", &log, &by_library(&log, 2, 1), &answer);
                    same_polygraph(&log, setting.0, setting.1, &mut out);
                }
                many += 1;
                found += (log.len() > without.len()) as usize;
            }
        }
    }
    println!("{many} windows, {found} of them with read-backs: the same answers and polygraphs as without");
}

/// Whole windows against walks from nothing at each place.
fn walks(tuned: &mut Tuned) {
    let mut many = 0;
    for count in [5, 8, 16, 24, 32] {
        for (k, (kind, _)) in KINDS.into_iter().enumerate() {
            let mut dice = Dice::new((1000 + count * 10 + k) as u64);
            for i in 0..60 {
                let log = windows::log(&windows::window(kind, count, &mut dice));
                let history = plain::history(&log);
                let answer = right(&history, history.first_by_walks(i % 3));
                same("tuned Rust and plain walks", &log, &by_tuned(tuned, &log), &answer);
                many += 1;
            }
        }
    }
    println!("{many} windows of 5 to 32 transactions against plain walks in three encodings: all the same");
}

/// Windows where the walk had to return to a choice are rare: they are looked for, and each is held against plain walks.
fn returns(tuned: &mut Tuned) {
    let mut dice = Dice::new(4);
    let (many, mut found) = (100_000, 0);
    for i in 0..many {
        let log = windows::log(&windows::window(Kind::Stale, 16 + i % 17, &mut dice));
        let before = tuned.returns;
        let answer = by_tuned(tuned, &log);
        if tuned.returns > before {
            found += 1;
            let history = plain::history(&log);
            for encoding in 0..3 {
                same("tuned Rust after a return and plain walks", &log, &right(&history, history.first_by_walks(encoding)), &answer);
            }
            if library::PRESENT {
                same("checker and tuned Rust after a return", &log, &by_library(&log, 2, 1), &answer);
            }
        }
    }
    println!("{many} windows of few reads, many stale: the walk returned to a choice in {found}; all the same as plain walks in three encodings");
}

/// Logs with a few bytes changed: the number of each. `backs` is the seed by which writes are read back; with 0 none is.
fn numbers(tuned: &mut Tuned, backs: u64) {
    let mut dice = Dice::new(3);
    let mut back = Dice::new(backs);
    // Load's numbers, in the order of its tests
    let all = [1, 2, 3, 35, 4, 5, 6, 7, 8, 9, 10, 34, 11];
    let mut seen = [0; 36];
    let many = 100_000;
    for i in 0..many {
        let kind = KINDS[i % KINDS.len()].0;
        let count = dice.below(33);
        let transactions = if backs == 0 { windows::window(kind, count, &mut dice) } else { windows::backed(kind, count, &mut dice, &mut back) };
        let mut log = windows::log(&transactions);
        for _ in 0..1 + dice.below(3) {
            match dice.below(6) {
                0 => log.truncate(dice.below(log.len() + 1)),
                1 => log.push(0),
                _ if log.is_empty() => {}
                2 => {
                    let at = dice.below(log.len().min(8));
                    log[at] = dice.below(40) as u8;
                }
                3 => {
                    let at = dice.below(log.len());
                    log[at] = dice.below(256) as u8;
                }
                _ => {
                    let at = dice.below(log.len());
                    log[at] = dice.below(4) as u8;
                }
            }
        }
        let number = plain::number(&log);
        seen[number as usize] += 1;
        let answer = by_tuned(tuned, &log);
        same("tuned Rust and the number", &log, &(if answer.number == 255 { 0 } else { answer.number }), &number);
        if number != 0 {
            same("tuned Rust and what a refusal leaves", &log, &Answer::blank(number), &answer);
        }
        if library::PRESENT {
            same("checker and tuned Rust", &log, &by_library(&log, 2, 1), &answer);
        }
    }
    let with = if backs == 0 { "" } else { " with read-backs and" };
    let counts: Vec<String> = all.iter().map(|&n| format!("{n}: {}", seen[n])).collect();
    println!("{many} logs{with} with changed bytes: as the documents number them; taken {}, refused with {}", seen[0], counts.join(", "));
}

/// The library's calls on full windows, every second with read-backs: what they refuse besides a log, what they leave, and what check says of orders with
/// two places exchanged.
fn calls(tuned: &mut Tuned) {
    let mut dice = Dice::new(5);
    let (mut legal, mut not) = (0, 0);
    for i in 0..200 {
        let log = windows::log(&if i % 2 == 0 { windows::full(&mut dice) } else { windows::full_backed(&mut dice) });
        let right = by_tuned(tuned, &log);
        let decide = |encoding: u8, pruning: u8, order_len: usize, table_len: usize| {
            let mut answer = Answer::blank(0);
            answer.number = library::decide(&log, encoding, pruning, &mut answer.order[..order_len], &mut answer.table[..table_len]);
            answer
        };
        same("decide and its buffers", &log, &decide(2, 1, 32, 64), &right);
        same("decide and a short order", &log, &decide(2, 1, 31, 64), &Answer::blank(25));
        same("decide and a short table", &log, &decide(2, 1, 32, 63), &Answer::blank(25));
        same("decide and its setting", &log, &decide(3, 1, 32, 64), &Answer::blank(12));
        same("decide and its setting", &log, &decide(2, 2, 32, 64), &Answer::blank(12));

        let polygraph = plain::history(&log).polygraph(2, 1).bytes();
        let encode = |encoding: u8, pruning: u8, len: usize| {
            let mut out = vec![0x5a; len];
            (library::encode(&log, encoding, pruning, &mut out), out)
        };
        same("encode and its buffer", &log, &encode(2, 1, polygraph.len()), &(0, polygraph.clone()));
        for (encoding, pruning, len, number) in
            [(2, 1, polygraph.len() - 1, 25), (2, 1, 0, 25), (3, 0, polygraph.len(), 12), (0, 2, polygraph.len(), 12)]
        {
            same("encode and what it refuses", &log, &encode(encoding, pruning, len), &(number, vec![0x5a; len]));
        }

        let mut order = right.order[..32].to_vec();
        same("check and a short order", &log, &library::check(&log, &order[..31]), &13);
        same("check and a long order", &log, &library::check(&log, &right.order[..33]), &13);
        for _ in 0..20 {
            let place = dice.below(31);
            order.swap(place, place + 1);
            let numbers: Vec<usize> = order.iter().map(|&t| t as usize).collect();
            let says = if plain::history(&log).legal(&numbers).is_some() { 0 } else { 255 };
            same("check and replay", &log, &library::check(&log, &order), &says);
            if says == 0 {
                legal += 1;
            } else {
                not += 1;
                order.swap(place, place + 1);
            }
        }
        order[7] = order[8];
        same("check and a number twice", &log, &library::check(&log, &order), &13);
        let short = &log[..log.len() - 1];
        same("check of a refused log", &log, &library::check(short, &order), &3);
        same("encode of a refused log", &log, &library::encode(short, 9, 9, &mut []), &3);
    }
    println!("the calls on 200 full windows: buffers, settings and 4000 orders ({legal} legal, {not} not) as document 01 says");
}

/// A starting table: random values, with many at both ends of the range; one of eight is 0 everywhere and one of eight 65535.
fn start(dice: &mut Dice) -> [u8; 64] {
    let ends = dice.below(8);
    let mut start = [if ends == 0 { 0 } else { 255 }; 64];
    for key in 0..32 {
        let value = match dice.below(4) {
            _ if ends < 2 => continue,
            0 => 0u16,
            1 => 65535,
            _ => dice.below(65536) as u16,
        };
        start[2 * key..2 * key + 2].copy_from_slice(&value.to_le_bytes());
    }
    start
}

/// Windows that begin with levels: number and order are those from zeros, a key that the log writes has its last value and any other its level; a start that
/// is not 64 bytes is 36, whatever the log.
fn starts() {
    let mut dice = Dice::new(8);
    let (many, mut found, mut taken) = (20_000, 0, 0);
    for i in 0..many {
        let kind = KINDS[i % KINDS.len()].0;
        let count = dice.below(33);
        let mut log = windows::log(&windows::window(kind, count, &mut dice));
        if i % 5 == 0 {
            let at = dice.below(log.len());
            log[at] = dice.below(40) as u8;
        }
        let start = start(&mut dice);
        let (encoding, pruning) = SETTINGS[dice.below(6)];
        let from = |start: &[u8]| {
            let mut answer = Answer::blank(0);
            answer.number = library::decide_from(&log, start, encoding, pruning, &mut answer.order, &mut answer.table);
            answer
        };
        let mut right = by_library(&log, 2, 1);
        same("a start of 64 zeros and none", &log, &from(&[0; 64]), &right);
        if right.number == 0 {
            let mut written = [false; 32];
            plain::history(&log).0.iter().for_each(|(_, bodies)| bodies.iter().filter(|b| b.write).for_each(|b| written[b.key] = true));
            for key in (0..32).filter(|&key| !written[key]) {
                right.table[2 * key..2 * key + 2].copy_from_slice(&start[2 * key..2 * key + 2]);
            }
            found += 1;
        }
        same("a start and the levels that it leaves", &log, &from(&start), &right);
        taken += (right.number == 0 || right.number == 255) as usize;
        for len in [0, 1, 32, 63, 65, 128] {
            let start = vec![start[0]; len];
            same("a start that is not 64 bytes", &log, &from(&start), &Answer::blank(36));
        }
    }
    same("36 before 1", &[], &library::decide_from(&[], &[0; 63], 9, 9, &mut [], &mut []), &36);
    same("1 after 36", &[], &library::decide_from(&[], &[0; 64], 9, 9, &mut [], &mut []), &1);
    println!("{many} windows from starting tables: {taken} taken, {found} with an order; code and order as from zeros, levels kept, other lengths 36");
}

/// Document 01's histories C, D and E, and E with read-backs: the constraints by encoding. F with a read-back has no order, and the edge 0→0.
fn counts() {
    let histories: [(&str, &[&[(bool, usize)]], [usize; 4]); 4] = [
        ("C", &[&[(true, 1)], &[(true, 2)]], [0, 1, 1, 1]),
        ("D", &[&[(true, 1)], &[(true, 2)], &[(false, 0)], &[(false, 0)], &[(false, 1)]], [3, 1, 1, 1]),
        ("E", &[&[(true, 1)], &[(false, 0), (true, 2)], &[(true, 3)], &[(false, 2), (true, 4)]], [4, 6, 1, 4]),
        (
            "E with read-backs",
            &[&[(true, 1), (false, 0)], &[(false, 0), (true, 2), (false, 1)], &[(true, 3), (false, 2)], &[(false, 2), (true, 4), (false, 3)]],
            [4, 6, 1, 4],
        ),
    ];
    let bodies = |t: &[(bool, usize)]| t.iter().map(|&(write, argument)| plain::Body { write, key: 0, argument }).collect();
    for (name, transactions, right) in histories {
        let history = plain::History(transactions.iter().enumerate().map(|(t, b)| (t as u8, bodies(b))).collect());
        let count = |encoding, pruning| history.polygraph(encoding, pruning).list.len();
        same(&format!("history {name} and its counts"), &[], &[count(0, 0), count(1, 0), count(2, 0), count(1, 1)], &right);
    }
    let f = plain::History(vec![(0, bodies(&[(false, 0), (true, 5), (false, 0)]))]);
    same("history F with a read-back and its order", &[], &f.first_of_all(), &None);
    same("history F with a read-back and its edge", &[], &f.polygraph(0, 0).rows[0], &1);
    println!("histories C, D and E have document 01's counts, E with read-backs those of E, and F with a read-back has no order");
}

pub fn run() {
    let mut tuned = Tuned::new();
    counts();
    permutations(&mut tuned, 0);
    permutations(&mut tuned, 6);
    walks(&mut tuned);
    backed(&mut tuned);
    returns(&mut tuned);
    numbers(&mut tuned, 0);
    numbers(&mut tuned, 7);
    if library::PRESENT {
        calls(&mut tuned);
        starts();
    } else {
        println!("without the library: the checker was not asked");
    }
}

//! Windows to time: logs of T transactions, by kind.

pub const START: u16 = 65535;

/// A small generator of numbers, the same on every machine.
pub struct Dice(u64);

impl Dice {
    pub fn new(seed: u64) -> Dice {
        Dice(seed.wrapping_mul(0x9e3779b97f4a7c15) ^ 0xd1b54a32d192ed03)
    }

    fn next(&mut self) -> u64 {
        // splitmix64
        self.0 = self.0.wrapping_add(0x9e3779b97f4a7c15);
        let mut z = self.0;
        z = (z ^ (z >> 30)).wrapping_mul(0xbf58476d1ce4e5b9);
        z = (z ^ (z >> 27)).wrapping_mul(0x94d049bb133111eb);
        z ^ (z >> 31)
    }

    /// A number below n.
    pub fn below(&mut self, n: usize) -> usize {
        (((self.next() >> 32) * n as u64) >> 32) as usize
    }
}

#[derive(Clone, Copy, PartialEq)]
pub enum Op {
    Read(u8, u16),
    Write(u8, u16),
}

#[derive(Clone)]
pub struct Transaction {
    pub cabinet: u8,
    pub ops: Vec<Op>,
}

#[derive(Clone, Copy, PartialEq)]
pub enum Kind {
    Serial,
    Disturbed,
    Snapshot,
    Blind,
    Chains,
    Stale,
}

pub const KINDS: [(Kind, &str); 6] = [
    (Kind::Serial, "serial runs shuffled"),
    (Kind::Disturbed, "one read disturbed"),
    (Kind::Snapshot, "snapshot isolation"),
    (Kind::Blind, "blind writes on few keys"),
    (Kind::Chains, "read-modify-write chains"),
    (Kind::Stale, "few reads, many stale"),
];

/// The bytes of a log.
pub fn log(history: &[Transaction]) -> Vec<u8> {
    let n: usize = history.iter().map(|t| t.ops.len()).sum();
    let mut bytes = Vec::with_capacity(4 + 4 * history.len() + 4 * n);
    bytes.extend((history.len() as u16).to_le_bytes());
    bytes.extend((n as u16).to_le_bytes());
    let mut start = 0u16;
    for t in history {
        bytes.extend([t.cabinet, t.ops.len() as u8]);
        bytes.extend(start.to_le_bytes());
        start += t.ops.len() as u16;
    }
    for op in history.iter().flat_map(|t| &t.ops) {
        let (kind, key, argument) = match *op {
            Op::Read(key, from) => (0, key, from),
            Op::Write(key, value) => (1, key, value),
        };
        bytes.extend([kind, key]);
        bytes.extend(argument.to_le_bytes());
    }
    bytes
}

/// Adds the operation unless the log's rules forbid it there.
fn note(ops: &mut Vec<Op>, op: Op) {
    let clash = ops.iter().any(|o| match (*o, op) {
        (Op::Read(a, _), Op::Read(b, _)) => a == b,
        (Op::Write(a, _), Op::Write(b, _) | Op::Read(b, _)) => a == b,
        _ => false,
    });
    if !clash {
        ops.push(op);
    }
}

/// Gives the transactions of a run other numbers; each cabinet keeps its own order. Reads name the new numbers.
fn shuffled(run: &[Transaction], dice: &mut Dice) -> Vec<Transaction> {
    let mut places: Vec<usize> = (0..run.len()).collect();
    for i in (1..places.len()).rev() {
        places.swap(i, dice.below(i + 1));
    }
    for cabinet in 0..16 {
        let own: Vec<usize> = (0..run.len()).filter(|&t| run[t].cabinet == cabinet).collect();
        let mut to: Vec<usize> = own.iter().map(|&t| places[t]).collect();
        to.sort();
        for (t, place) in own.into_iter().zip(to) {
            places[t] = place;
        }
    }
    let mut history = run.to_vec();
    for (t, transaction) in run.iter().enumerate() {
        let mut moved = transaction.clone();
        for op in &mut moved.ops {
            if let Op::Read(_, from) = op {
                if *from != START {
                    *from = places[*from as usize] as u16;
                }
            }
        }
        history[places[t]] = moved;
    }
    history
}

/// Changes one read to another writer of its key, or to the start.
pub fn disturb(history: &mut [Transaction], dice: &mut Dice) {
    let reads: Vec<(usize, usize)> = (0..history.len())
        .flat_map(|t| (0..history[t].ops.len()).map(move |i| (t, i)))
        .filter(|&(t, i)| matches!(history[t].ops[i], Op::Read(..)))
        .collect();
    for _ in 0..20 {
        if reads.is_empty() {
            return;
        }
        let (t, i) = reads[dice.below(reads.len())];
        let Op::Read(key, from) = history[t].ops[i] else { return };
        let others: Vec<u16> = (0..history.len())
            .filter(|&u| u != t && history[u].ops.iter().any(|o| matches!(*o, Op::Write(k, _) if k == key)))
            .map(|u| u as u16)
            .chain([START])
            .filter(|&u| u != from)
            .collect();
        if !others.is_empty() {
            history[t].ops[i] = Op::Read(key, others[dice.below(others.len())]);
            return;
        }
    }
}

/// A serial run: at most `most` operations in a transaction (all of them where `full`), of 16 those given are writes.
fn serial(count: usize, keys: usize, most: usize, full: bool, writes: usize, dice: &mut Dice) -> Vec<Transaction> {
    let mut latest = [START; 32];
    let mut run = Vec::new();
    for t in 0..count {
        let wanted = if full { most } else { 1 + dice.below(most) };
        let mut ops = Vec::new();
        for _ in 0..if full { 1000 } else { wanted } {
            let key = dice.below(keys);
            let op = if dice.below(16) < writes { Op::Write(key as u8, dice.below(65536) as u16) } else { Op::Read(key as u8, latest[key]) };
            note(&mut ops, op);
            if ops.len() == wanted {
                break;
            }
        }
        for op in &ops {
            if let Op::Write(key, _) = *op {
                latest[key as usize] = t as u16;
            }
        }
        run.push(Transaction { cabinet: dice.below(16) as u8, ops });
    }
    run
}

/// Reads look at a snapshot up to three commits old, and not older than the cabinet's own latest; a write goes in only where no
/// commit since the snapshot wrote the key (the first committer wins).
fn snapshot(count: usize, keys: usize, dice: &mut Dice) -> Vec<Transaction> {
    let mut tables = vec![[START; 32]];
    let mut own = [0usize; 16];
    let mut run = Vec::new();
    for t in 0..count {
        let cabinet = dice.below(16);
        let age = if dice.below(4) == 0 { 1 + dice.below(3) } else { 0 };
        let seen = t.saturating_sub(age).max(own[cabinet]);
        let mut ops = Vec::new();
        for _ in 0..1 + dice.below(8) {
            let key = dice.below(keys);
            if dice.below(3) != 0 {
                note(&mut ops, Op::Read(key as u8, tables[seen][key]));
            } else if tables[seen][key] == tables[t][key] {
                note(&mut ops, Op::Write(key as u8, dice.below(65536) as u16));
            }
        }
        let mut table = tables[t];
        for op in &ops {
            if let Op::Write(key, _) = *op {
                table[key as usize] = t as u16;
            }
        }
        tables.push(table);
        own[cabinet] = t + 1;
        run.push(Transaction { cabinet: cabinet as u8, ops });
    }
    run
}

/// A serial run of read-modify-writes, of which one in eight is a write alone and begins a chain of its own.
fn chained(count: usize, keys: usize, dice: &mut Dice) -> Vec<Transaction> {
    let mut latest = [START; 32];
    let mut run = Vec::new();
    for t in 0..count {
        let mut ops: Vec<Op> = Vec::new();
        for _ in 0..1 + dice.below(4) {
            let key = dice.below(keys) as u8;
            if ops.iter().any(|o| matches!(*o, Op::Write(k, _) if k == key)) {
                continue;
            }
            if dice.below(8) != 0 {
                ops.push(Op::Read(key, latest[key as usize]));
            }
            ops.push(Op::Write(key, dice.below(65536) as u16));
        }
        for op in &ops {
            if let Op::Write(key, _) = *op {
                latest[key as usize] = t as u16;
            }
        }
        run.push(Transaction { cabinet: dice.below(16) as u8, ops });
    }
    run
}

/// Each transaction writes two of 32 keys, and three in four read what any earlier one wrote, whether or not that was the last.
fn stale(count: usize, dice: &mut Dice) -> Vec<Transaction> {
    let mut run: Vec<Transaction> = Vec::new();
    for t in 0..count {
        let mut ops = Vec::new();
        if t > 0 && dice.below(4) != 0 {
            let u = dice.below(t);
            let writes: Vec<u8> = run[u].ops.iter().filter_map(|o| if let Op::Write(key, _) = *o { Some(key) } else { None }).collect();
            ops.push(Op::Read(writes[dice.below(writes.len())], u as u16));
        }
        for _ in 0..2 {
            note(&mut ops, Op::Write(dice.below(32) as u8, dice.below(65536) as u16));
        }
        run.push(Transaction { cabinet: dice.below(16) as u8, ops });
    }
    run
}

/// A window of a kind.
pub fn window(kind: Kind, count: usize, dice: &mut Dice) -> Vec<Transaction> {
    let keys = [4, 8, 16, 32][dice.below(4)];
    match kind {
        Kind::Serial => shuffled(&serial(count, keys, 8, false, 8, dice), dice),
        Kind::Disturbed => {
            let mut history = shuffled(&serial(count, keys, 8, false, 8, dice), dice);
            disturb(&mut history, dice);
            history
        }
        Kind::Snapshot => shuffled(&snapshot(count, keys, dice), dice),
        Kind::Blind => {
            let few = 2 + dice.below(7);
            let mut history = shuffled(&serial(count, few, 8, false, 14, dice), dice);
            if dice.below(2) == 0 {
                disturb(&mut history, dice);
            }
            history
        }
        Kind::Chains => shuffled(&chained(count, keys, dice), dice),
        Kind::Stale => shuffled(&stale(count, dice), dice),
    }
}

/// Has transactions read back what they write, of so many writes one, as far as the log has room: right behind the write, or behind all else that the
/// transaction does. The rest of the window stays as it is, and so does its answer.
pub fn read_back(history: &mut [Transaction], of: usize, dice: &mut Dice) {
    let mut room = 256 - history.iter().map(|t| t.ops.len()).sum::<usize>();
    for (t, transaction) in history.iter_mut().enumerate() {
        let (mut ops, mut late) = (Vec::new(), Vec::new());
        for &op in &transaction.ops {
            ops.push(op);
            let Op::Write(key, _) = op else { continue };
            if room > 0 && dice.below(of) == 0 {
                room -= 1;
                let place = if dice.below(2) == 0 { &mut ops } else { &mut late };
                place.push(Op::Read(key, t as u16));
            }
        }
        ops.extend(late);
        transaction.ops = ops;
    }
}

/// A window of a kind where one write in two, drawn at random, is read back. The window is the one that the first dice make.
pub fn backed(kind: Kind, count: usize, dice: &mut Dice, backs: &mut Dice) -> Vec<Transaction> {
    let mut history = window(kind, count, dice);
    read_back(&mut history, 2, backs);
    history
}

/// A full window: 32 transactions, 256 operations, 8 keys; of a serial run, with half of the operations writes or more.
pub fn full(dice: &mut Dice) -> Vec<Transaction> {
    let writes = [8, 12, 15][dice.below(3)];
    shuffled(&serial(32, 8, 8, true, writes, dice), dice)
}

/// The same with 160 operations, and as many read-backs of its writes as 256 leave room for.
pub fn full_backed(dice: &mut Dice) -> Vec<Transaction> {
    let writes = [8, 12, 15][dice.below(3)];
    let mut history = shuffled(&serial(32, 8, 5, true, writes, dice), dice);
    read_back(&mut history, 1, dice);
    history
}

/// A small history of any sort, for a search through all permutations.
pub fn small(dice: &mut Dice) -> Vec<Transaction> {
    let count = dice.below(7);
    let keys = 1 + dice.below(3);
    let cabinets = 1 + dice.below(8);
    if dice.below(2) == 0 {
        let mut history = shuffled(&serial(count, keys, 4, false, 6 + dice.below(8), dice), dice);
        if dice.below(2) == 0 {
            disturb(&mut history, dice);
        }
        return history;
    }
    (0..count)
        .map(|t| {
            let mut ops = Vec::new();
            for _ in 0..dice.below(4) {
                let key = dice.below(keys) as u8;
                let mut from = if dice.below(4) == 0 { START } else { dice.below(count) as u16 };
                if from as usize == t && dice.below(8) != 0 {
                    from = START;
                }
                let op = if dice.below(2) == 0 { Op::Write(key, dice.below(65536) as u16) } else { Op::Read(key, from) };
                note(&mut ops, op);
            }
            Transaction { cabinet: dice.below(cabinets) as u8, ops }
        })
        .collect()
}

//! The yardstick: the method of the checker's search in plain Rust, tuned for speed, for encoding 2 with pruning.
//! From the log's bytes to the number, the first legal order and the table, with every test of Load.
//!
//! Columns, not rows: bit u of cols[v] says that u is v or comes before it, by the edges so far; they are kept closed as edges are added.
//! In encoding 2 the sources of a side depend on the tail alone (no reader of a tail writes the key), so a chain has one set of ends, and
//! the constraints between a chain and the others of its key are one word of heads, pruned together.

const EVERY: usize = 32;
const NONE: u16 = 65535;

/// Bit j at place j.
const BIT: [u32; 32] = {
    let mut bit = [0; 32];
    let mut j = 0;
    while j < 32 {
        bit[j] = 1 << j;
        j += 1;
    }
    bit
};

/// What no step of the search changes: the chains of keys that have two or more, by key, then by head.
struct Chains {
    count: usize,
    head: [u8; 256],
    /// The readers of the tail, or the tail.
    ends: [u32; 256],
    /// Where the key's places in `at` start.
    key: [u16; 256],
    /// The chain of a key with a given head.
    at: [u8; 32 * EVERY],
    /// Chains with the same head: the first, and the next of each.
    first: [u16; EVERY],
    next: [u16; 256],
    /// The chains with a given end.
    ending: [[u64; 4]; EVERY],
}

/// What a step changes.
#[derive(Clone, Copy)]
struct State {
    cols: [u32; EVERY],
    /// For each chain the heads of those that it is not ordered with.
    open: [u32; 256],
    /// The chains that have any.
    live: [u64; 4],
}

pub struct Tuned {
    /// By key, in 64 places: the readers of each write, and at 32 of the start.
    readers: [u32; 32 * 64],
    values: [u16; 32 * EVERY],
    /// By key and write: its successor, or 32.
    next: [u8; 32 * EVERY],
    chains: Chains,
    known: State,
    trial: State,
    placed: State,
    /// For each choice whose side A stands the state before it: from the choice's chain on, as those below have no constraint left.
    saved: Vec<u32>,
    /// Returns to a choice, in all.
    pub returns: u64,
}

/// Every column with t takes `before`. Gives the columns that changed.
#[inline(always)]
fn sweep(cols: &mut [u32; EVERY], t: usize, before: u32) -> u32 {
    let mut changed = 0;
    let bit = 1u32 << (t & 31);
    for j in 0..EVERY {
        let old = cols[j];
        let new = if old & bit != 0 { old | before } else { old };
        cols[j] = new;
        changed |= if new != old { BIT[j] } else { 0 };
    }
    changed
}

/// The numbers in m that nothing else in m comes before.
#[inline(always)]
fn free(cols: &[u32; EVERY], m: u32) -> u32 {
    let mut found = 0;
    for j in 0..EVERY {
        found |= if cols[j] & m == BIT[j] { BIT[j] } else { 0 };
    }
    found
}

/// All that come before a member of s, or are one.
#[inline(always)]
fn before(cols: &[u32; EVERY], mut s: u32) -> u32 {
    let mut all = 0;
    while s != 0 {
        all |= cols[s.trailing_zeros() as usize & 31];
        s &= s - 1;
    }
    all
}

impl State {
    /// Chain c is now ordered with those of these heads.
    #[inline(always)]
    fn close(&mut self, c: usize, heads: u32) {
        let c = c & 255;
        self.open[c] &= !heads;
        self.live[c / 64] &= !(((self.open[c] == 0) as u64) << (c % 64));
    }

    /// Adds the edges from each source to the target. Gives the columns that changed, or none on a cycle.
    #[inline(always)]
    fn add(&mut self, sources: u32, target: usize) -> Option<u32> {
        let fresh = sources & !self.cols[target & 31];
        if fresh == 0 {
            return Some(0);
        }
        let all = before(&self.cols, fresh);
        if all >> target & 1 == 1 {
            return None;
        }
        Some(sweep(&mut self.cols, target, all))
    }

    /// Takes over another state of so many chains.
    #[inline(always)]
    fn copy(&mut self, other: &State, count: usize) {
        self.cols = other.cols;
        self.live = other.live;
        let count = count.min(256);
        self.open[..count].copy_from_slice(&other.open[..count]);
    }

    /// The first chain that is not ordered with every other of its key, or 256.
    #[inline(always)]
    fn first(&self) -> usize {
        for w in 0..4 {
            if self.live[w] != 0 {
                return w * 64 + self.live[w].trailing_zeros() as usize;
            }
        }
        256
    }
}

impl Chains {
    #[inline(always)]
    fn chain(&self, c: usize, head: u32) -> usize {
        self.at[(self.key[c & 255] as usize + head as usize) & 1023] as usize
    }

    /// Prunes to the end, where the columns in `dirty` changed. False on a cycle.
    #[inline(always)]
    fn prune(&self, s: &mut State, mut dirty: u32) -> bool {
        let words = self.count.div_ceil(64).min(4);
        while dirty != 0 {
            let mut look = [0; 4];
            while dirty != 0 {
                let with = &self.ending[dirty.trailing_zeros() as usize & 31];
                dirty &= dirty - 1;
                for w in 0..words {
                    look[w] |= with[w];
                }
            }
            for w in 0..words {
                let mut ones = look[w] & s.live[w];
                while ones != 0 {
                    let c = w * 64 + ones.trailing_zeros() as usize;
                    ones &= ones - 1;
                    // heads that reach an end of this chain: their chains come first
                    let mut forced = before(&s.cols, self.ends[c]) & s.open[c];
                    if forced == 0 {
                        continue;
                    }
                    let head = self.head[c] as usize & 31;
                    s.close(c, forced);
                    let mut sources = 0;
                    while forced != 0 {
                        let other = self.chain(c, forced.trailing_zeros());
                        forced &= forced - 1;
                        s.close(other, 1 << head);
                        sources |= self.ends[other];
                    }
                    let Some(changed) = s.add(sources, head) else { return false };
                    dirty |= changed;
                }
            }
        }
        true
    }

    /// Puts chain c before the chain of the same key with this head. Gives the columns that changed, or none on a cycle.
    #[inline(always)]
    fn put(&self, s: &mut State, c: usize, other: usize) -> Option<u32> {
        let (c, other) = (c & 255, other & 255);
        let head = self.head[other] as usize & 31;
        s.close(c, 1 << head);
        s.close(other, 1 << (self.head[c] & 31));
        s.add(self.ends[c], head)
    }

    /// Puts x before all else in m, and prunes. False on a cycle.
    fn place(&self, s: &mut State, x: usize, m: u32) -> bool {
        for j in 0..EVERY {
            s.cols[j] |= if m & BIT[j] != 0 { 1 << x } else { 0 };
        }
        // only sides with target x can be closed off by this
        let mut dirty = 0;
        let mut c = self.first[x & 31];
        while c != NONE {
            let mut open = s.open[c as usize];
            while open != 0 {
                let other = self.chain(c as usize, open.trailing_zeros());
                open &= open - 1;
                let Some(changed) = self.put(s, c as usize, other) else { return false };
                dirty |= changed;
            }
            c = self.next[c as usize];
        }
        self.prune(s, dirty)
    }
}

fn two(log: &[u8], at: usize) -> usize {
    log[at] as usize | (log[at + 1] as usize) << 8
}

/// The number of a log one of whose bodies is refused.
#[cold]
fn refusal(entries: &[u8], bodies: &[u8]) -> u32 {
    let mut rest = bodies;
    for (t, entry) in entries.chunks_exact(4).enumerate() {
        let (own, later) = rest.split_at(4 * entry[1] as usize);
        rest = later;
        let (mut has_read, mut has_written, mut has_back) = (0u32, 0u32, 0u32);
        for body in own.chunks_exact(4) {
            let (kind, key, argument) = (body[0], body[1], two(body, 2));
            if kind > 1 {
                return 7;
            }
            if key > 31 {
                return 8;
            }
            if kind == 0 && argument >= entries.len() / 4 && argument != 65535 {
                return 9;
            }
            let back = kind == 0 && has_written >> key & 1 == 1;
            let has = match (kind, back) {
                (1, _) => &mut has_written,
                (_, true) => &mut has_back,
                (_, false) => &mut has_read,
            };
            if *has >> key & 1 == 1 {
                return if kind == 0 { 10 } else { 34 };
            }
            *has |= 1 << key;
            if back && argument != t {
                return 11;
            }
        }
    }
    unreachable!("every body is good")
}

impl Tuned {
    pub fn new() -> Box<Tuned> {
        let state = State { cols: [0; EVERY], open: [0; 256], live: [0; 4] };
        Box::new(Tuned {
            readers: [0; 32 * 64],
            values: [0; 32 * EVERY],
            next: [32; 32 * EVERY],
            chains: Chains {
                count: 0,
                head: [0; 256],
                ends: [0; 256],
                key: [0; 256],
                at: [0; 32 * EVERY],
                first: [NONE; EVERY],
                next: [NONE; 256],
                ending: [[0; 4]; EVERY],
            },
            known: state,
            trial: state,
            placed: state,
            saved: Vec::with_capacity(4096),
            returns: 0,
        })
    }

    /// 0 with the order's T bytes and the table as 64 bytes, 255 for 'no order', else the refusal's number.
    pub fn decide(&mut self, log: &[u8], order: &mut [u8], table: &mut [u8]) -> u32 {
        if log.len() < 4 {
            return 1;
        }
        let (t_count, n_count) = (two(log, 0), two(log, 2));
        if t_count > 32 || n_count > 256 {
            return 2;
        }
        let said = 4 + 4 * t_count + 4 * n_count;
        if log.len() != said {
            return if log.len() < said { 3 } else { 35 };
        }
        let (entries, bodies) = log[4..].split_at(4 * t_count);
        let mut start = 0;
        let mut begins = [0u8; 257];
        for entry in entries.chunks_exact(4) {
            if entry[0] > 15 {
                return 4;
            }
            if two(entry, 2) != start {
                return 5;
            }
            begins[start.min(256)] += 1;
            start += entry[1] as usize;
        }
        if start != n_count {
            return 6;
        }

        // The bodies, with no branch: the writers of each key, and 32 for the start; the keys that each transaction writes; the values; the
        // reads and the writes as lists. A read-back is tested, and leaves nothing: a write takes the key out of those read so far, and only a read-back
        // puts it in again.
        let mut writers = [1u64 << 32; 32];
        let mut written = [0u32; EVERY];
        let (mut reads, mut writes) = ([0u32; 256], [0u16; 256]);
        let (mut read_count, mut write_count) = (0, 0);
        let mut bad = 0;
        let mut t = 31usize;
        let (mut has_read, mut has_written) = (0u32, 0u32);
        for (body, begin) in bodies.chunks_exact(4).zip(&begins) {
            let word = u32::from_le_bytes([body[0], body[1], body[2], body[3]]);
            let (kind, key, argument) = (word & 255, word >> 8 & 255, word >> 16);
            t = (t + *begin as usize) & 31;
            let same = if *begin == 0 { u32::MAX } else { 0 };
            has_read &= same;
            has_written &= same;
            let (write, bit, place) = (0u32.wrapping_sub(kind & 1), 1u32 << (key & 31), key as usize & 31);
            let unknown = (argument >= t_count as u32) & (argument != 65535);
            let (read, wrote) = (bit & !write, bit & write);
            let back = has_written & read;
            let other = if argument == t as u32 { 0 } else { back };
            bad |= kind >> 1 | key >> 5 | (unknown as u32 & !write) | has_read & read | has_written & wrote | other;
            has_read = (has_read | read) & !wrote;
            has_written |= wrote;
            written[t] = has_written;
            writers[place] |= (write & 1 << t) as u64;
            let value = &mut self.values[place * 32 + t];
            *value = if back == 0 { argument as u16 } else { *value };
            self.readers[place * 64 + t] = 0;
            reads[read_count & 255] = (place as u32) << 16 | (t as u32) << 8 | argument.min(32);
            read_count += (read != back) as usize;
            writes[write_count & 255] = (place << 8 | t) as u16;
            write_count += (write & 1) as usize;
        }
        if bad != 0 {
            return refusal(entries, bodies);
        }
        if order.len() < t_count || table.len() < 64 {
            return 25;
        }
        let all = if t_count == 32 { u32::MAX } else { (1 << t_count) - 1 };

        // direct predecessors; place 32 takes what belongs nowhere
        let mut cols = [0u32; 64];
        let mut last = [32u8; 16];
        for (t, entry) in entries.chunks_exact(4).enumerate() {
            let cabinet = entry[0] as usize & 15;
            cols[t & 31] |= (1u64 << (last[cabinet] & 63)) as u32;
            last[cabinet] = t as u8;
        }
        for key in 0..32 {
            self.readers[key * 64 + 32] = 0;
        }
        for &read in &reads[..read_count.min(256)] {
            let (key, t, u) = (read as usize >> 16 & 31, read >> 8 & 31, read & 63);
            bad |= (u == t) as u32 | (writers[key] >> u & 1) as u32 ^ 1;
            self.readers[key * 64 + u as usize] |= 1 << t;
            cols[t as usize] |= (1u64 << u) as u32;
        }
        if bad != 0 {
            return 255;
        }

        // chains
        let chains = &mut self.chains;
        let open = &mut self.known.open;
        let mut count = 0;
        let mut followers = [0u64; 32];
        for &write in &writes[..write_count.min(256)] {
            let (key, u) = (write as usize >> 8 & 31, write as usize & 31);
            let read_by = self.readers[key * 64 + u];
            let v = ((read_by as u64 & writers[key]) | 1 << 32).trailing_zeros() as usize & 63;
            self.next[key * 32 + u] = v as u8;
            followers[key] |= 1 << v;
            cols[u] |= self.readers[key * 64 + 32] & !(1 << u);
            cols[v] |= read_by & !(1u64 << v) as u32;
        }
        for key in 0..32 {
            let heads = writers[key] as u32 & !followers[key] as u32;
            if heads & heads.wrapping_sub(1) == 0 {
                continue;
            }
            let mut ones = heads;
            while ones != 0 {
                let g = ones.trailing_zeros() as usize & 31;
                ones &= ones - 1;
                let mut tail = g;
                while self.next[key * 32 + tail] < 32 {
                    tail = self.next[key * 32 + tail] as usize & 31;
                }
                let readers = self.readers[key * 64 + tail];
                let c = count & 255;
                chains.head[c] = g as u8;
                chains.ends[c] = if readers == 0 { 1 << tail } else { readers };
                chains.key[c] = key as u16 * 32;
                chains.at[key * 32 + g] = c as u8;
                open[c] = heads & !(1 << g);
                count += 1;
            }
        }
        chains.count = count;
        let mut cols: [u32; EVERY] = std::array::from_fn(|t| cols[t]);

        // closure, and the cycle test
        for k in 0..EVERY {
            let through = cols[k];
            for j in 0..EVERY {
                cols[j] |= if cols[j] & BIT[k] != 0 { through } else { 0 };
            }
        }
        let mut own = 0;
        for j in 0..EVERY {
            own |= cols[j] & BIT[j];
            cols[j] |= BIT[j];
        }
        if own != 0 {
            return 255;
        }
        self.known.cols = cols;

        let mut found = [0u8; EVERY];
        if count == 0 {
            lowest_first(&self.known.cols, all, &mut found);
        } else if !self.first_order(all, &mut found) {
            return 255;
        }

        // the table: the last writer of each key
        table[..64].fill(0);
        let mut seen = 0;
        for &t in found[..t_count].iter().rev() {
            let t = t as usize & 31;
            let mut fresh = written[t] & !seen;
            seen |= fresh;
            while fresh != 0 {
                let key = fresh.trailing_zeros() as usize;
                fresh &= fresh - 1;
                table[2 * key..2 * key + 2].copy_from_slice(&self.values[key * 32 + t].to_le_bytes());
            }
        }
        order[..t_count].copy_from_slice(&found[..t_count]);
        0
    }

    /// The walk from the trial state: side A of the first constraint left, on a cycle back to the latest choice whose A stands.
    /// Where it is true, the trial state is a whole selection.
    fn walk(&mut self) -> bool {
        let chains = &self.chains;
        let s = &mut self.trial;
        self.saved.clear();
        loop {
            let a = s.first();
            if a == 256 {
                return true;
            }
            let b = chains.chain(a, s.open[a].trailing_zeros());
            self.saved.extend_from_slice(&s.cols);
            self.saved.extend_from_slice(&s.open[a..chains.count]);
            self.saved.push((a << 8 | b) as u32);
            let mut good = match chains.put(s, a, b) {
                Some(dirty) => chains.prune(s, dirty),
                None => false,
            };
            while !good {
                let Some(choice) = self.saved.pop() else { return false };
                let (a, b) = (choice as usize >> 8, choice as usize & 255);
                let open = self.saved.len() - (chains.count - a);
                let cols = open - EVERY;
                s.cols.copy_from_slice(&self.saved[cols..open]);
                s.open[a..chains.count].copy_from_slice(&self.saved[open..]);
                s.live = [0; 4];
                for c in a..chains.count {
                    s.live[c / 64] |= ((s.open[c] != 0) as u64) << (c % 64);
                }
                self.saved.truncate(cols);
                self.returns += 1;
                good = match chains.put(s, b, a) {
                    Some(dirty) => chains.prune(s, dirty),
                    None => false,
                };
            }
        }
    }

    /// The first order that respects the polygraph, from the known state.
    fn first_order(&mut self, all: u32, found: &mut [u8; EVERY]) -> bool {
        self.chains.first = [NONE; EVERY];
        self.chains.ending = [[0; 4]; EVERY];
        self.known.live = [0; 4];
        for c in 0..self.chains.count.min(256) {
            let head = self.chains.head[c] as usize & 31;
            self.chains.next[c] = self.chains.first[head];
            self.chains.first[head] = c as u16;
            self.known.live[c / 64] |= 1 << (c % 64);
            let mut ends = self.chains.ends[c];
            while ends != 0 {
                self.chains.ending[ends.trailing_zeros() as usize & 31][c / 64] |= 1 << (c % 64);
                ends &= ends - 1;
            }
        }
        if !self.chains.prune(&mut self.known, all) {
            return false;
        }
        self.trial.copy(&self.known, self.chains.count);
        if !self.walk() {
            return false;
        }
        let mut witness = self.trial.cols;
        let mut m = all;
        let mut place = 0;
        while m != 0 {
            if self.known.first() == 256 {
                lowest_first(&self.known.cols, m, &mut found[place..]);
                return true;
            }
            let allowed = free(&witness, m);
            let mut candidates = free(&self.known.cols, m);
            loop {
                let x = candidates.trailing_zeros() as usize & 31;
                if allowed & (1 << x) != 0 {
                    self.chains.place(&mut self.known, x, m);
                    found[place] = x as u8;
                    break;
                }
                self.trial.copy(&self.known, self.chains.count);
                if self.chains.place(&mut self.trial, x, m) {
                    self.placed.copy(&self.trial, self.chains.count);
                    if self.walk() {
                        witness = self.trial.cols;
                        self.known.copy(&self.placed, self.chains.count);
                        found[place] = x as u8;
                        break;
                    }
                }
                candidates &= candidates - 1;
            }
            m &= !(1 << found[place]);
            place += 1;
        }
        true
    }
}

/// The order that takes the lowest free number each time.
fn lowest_first(cols: &[u32; EVERY], mut m: u32, found: &mut [u8]) {
    let mut place = 0;
    while m != 0 {
        let x = free(cols, m).trailing_zeros();
        found[place] = x as u8;
        m &= !(1 << x);
        place += 1;
    }
}

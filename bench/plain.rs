//! Document 01 and cards 1 and 3 taken word by word, with no thought for speed: what the other programs are compared with.

pub const START: usize = 65535;

pub struct Body {
    pub write: bool,
    pub key: usize,
    pub argument: usize,
}

/// A log that Load takes, read: for each transaction its cabinet and its bodies.
pub struct History(pub Vec<(u8, Vec<Body>)>);

#[derive(Clone, Copy, PartialEq, Debug)]
pub struct Side {
    pub sources: u32,
    pub target: usize,
}

#[derive(Clone, Copy, PartialEq, Debug)]
pub struct Constraint {
    pub a: Side,
    pub b: Side,
}

pub struct Polygraph {
    pub rows: [u32; 32],
    pub list: Vec<Constraint>,
}

pub fn members(mask: u32) -> impl Iterator<Item = usize> {
    (0..32).filter(move |&i| mask >> i & 1 == 1)
}

/// The number with which Load refuses a log, or 0.
pub fn number(log: &[u8]) -> u32 {
    let two = |at: usize| log[at] as usize + 256 * log[at + 1] as usize;
    if log.len() < 4 {
        return 1;
    }
    let (t_count, n_count) = (two(0), two(2));
    if t_count > 32 || n_count > 256 {
        return 2;
    }
    let said = 4 + 4 * t_count + 4 * n_count;
    if log.len() != said {
        return if log.len() < said { 3 } else { 35 };
    }
    let mut owner = Vec::new();
    for t in 0..t_count {
        if log[4 + 4 * t] > 15 {
            return 4;
        }
        if two(6 + 4 * t) != owner.len() {
            return 5;
        }
        owner.extend(std::iter::repeat(t).take(log[5 + 4 * t] as usize));
    }
    if owner.len() != n_count {
        return 6;
    }
    let body = |i: usize| &log[4 + 4 * t_count + 4 * i..][..4];
    let alike = |i: usize, j: usize| owner[j] == owner[i] && body(j)[1] == body(i)[1];
    // a write of the key stands before body i in its transaction
    let behind = |i: usize| (0..i).any(|j| alike(i, j) && body(j)[0] == 1);
    for i in 0..n_count {
        let (kind, key, argument) = (body(i)[0], body(i)[1], two(4 + 4 * t_count + 4 * i + 2));
        if kind > 1 {
            return 7;
        }
        if key > 31 {
            return 8;
        }
        if kind == 0 && argument >= t_count && argument != START {
            return 9;
        }
        if (0..i).any(|j| alike(i, j) && body(j)[0] == kind && (kind == 1 || behind(j) == behind(i))) {
            return if kind == 0 { 10 } else { 34 };
        }
        if kind == 0 && behind(i) && argument != owner[i] {
            return 11;
        }
    }
    0
}

pub fn history(log: &[u8]) -> History {
    let two = |at: usize| log[at] as usize + 256 * log[at + 1] as usize;
    let count = two(0);
    let body = |i: usize| {
        let at = 4 + 4 * count + 4 * i;
        Body { write: log[at] == 1, key: log[at + 1] as usize, argument: two(at + 2) }
    };
    History((0..count).map(|t| (log[4 + 4 * t], (0..log[5 + 4 * t] as usize).map(|i| body(two(6 + 4 * t) + i)).collect())).collect())
}

impl History {
    pub fn count(&self) -> usize {
        self.0.len()
    }

    fn writes(&self, t: usize, key: usize) -> bool {
        self.0[t].1.iter().any(|b| b.write && b.key == key)
    }

    fn writers(&self, key: usize) -> Vec<usize> {
        (0..self.count()).filter(|&t| self.writes(t, key)).collect()
    }

    /// The reads of t, without its read-backs: no write of the key stands before such a read in its transaction.
    fn reads(&self, t: usize) -> impl Iterator<Item = &Body> {
        let bodies = &self.0[t].1;
        let behind = |i: usize| bodies[..i].iter().any(|w| w.write && w.key == bodies[i].key);
        (0..bodies.len()).filter(move |&i| !bodies[i].write && !behind(i)).map(|i| &bodies[i])
    }

    fn good(&self, t: usize, body: &Body) -> bool {
        body.argument != START && body.argument != t && self.writes(body.argument, body.key)
    }

    /// Readers(w), as a mask.
    fn readers(&self, key: usize, w: usize) -> u32 {
        let reads = |&t: &usize| self.reads(t).any(|b| b.key == key && self.good(t, b) && b.argument == w);
        (0..self.count()).filter(reads).fold(0, |mask, t| mask | 1 << t)
    }

    /// Ends(w, h), as a mask.
    fn ends(&self, key: usize, w: usize, h: usize) -> u32 {
        let without = self.readers(key, w) & !(1 << h);
        if without == 0 {
            1 << w
        } else {
            without
        }
    }

    fn successor(&self, key: usize, u: usize) -> Option<usize> {
        members(self.readers(key, u)).find(|&v| v != u && self.writes(v, key))
    }

    /// Does this order of every number below T keep each cabinet's own order, with every read explained? The table it leaves.
    pub fn legal(&self, order: &[usize]) -> Option<[u16; 32]> {
        let mut latest = [START; 32];
        let mut table = [0; 32];
        for (place, &t) in order.iter().enumerate() {
            if order[..place].iter().any(|&u| self.0[u].0 == self.0[t].0 && u > t) {
                return None;
            }
            if self.reads(t).any(|b| latest[b.key] != b.argument || b.argument == t) {
                return None;
            }
            for b in self.0[t].1.iter().filter(|b| b.write) {
                latest[b.key] = t;
                table[b.key] = b.argument as u16;
            }
        }
        Some(table)
    }

    /// The first legal order among all permutations, in their order.
    pub fn first_of_all(&self) -> Option<Vec<usize>> {
        let mut order: Vec<usize> = (0..self.count()).collect();
        loop {
            if self.legal(&order).is_some() {
                return Some(order);
            }
            let i = (1..order.len()).rev().find(|&i| order[i - 1] < order[i])?;
            let j = (i..order.len()).rev().find(|&j| order[j] > order[i - 1])?;
            order.swap(i - 1, j);
            order[i..].reverse();
        }
    }

    pub fn polygraph(&self, encoding: u8, pruning: u8) -> Polygraph {
        let count = self.count();
        let mut rows = [0u32; 32];
        let mut list = Vec::new();
        for t in 0..count {
            if let Some(next) = (t + 1..count).find(|&v| self.0[v].0 == self.0[t].0) {
                rows[t] |= 1 << next;
            }
            for b in self.reads(t) {
                if self.good(t, b) {
                    rows[b.argument] |= 1 << t;
                } else if b.argument == START {
                    self.writers(b.key).into_iter().filter(|&v| v != t).for_each(|v| rows[t] |= 1 << v);
                } else {
                    rows[t] |= 1 << t;
                }
            }
        }
        if encoding == 0 {
            for t in 0..count {
                for b in self.reads(t).filter(|b| self.good(t, b)) {
                    for v in self.writers(b.key).into_iter().filter(|&v| v != b.argument && v != t) {
                        list.push(Constraint { a: Side { sources: 1 << t, target: v }, b: Side { sources: 1 << v, target: b.argument } });
                    }
                }
            }
        }
        for key in 0..32 {
            let writers = self.writers(key);
            if encoding == 1 {
                for (at, &i) in writers.iter().enumerate() {
                    for &j in &writers[at + 1..] {
                        list.push(Constraint {
                            a: Side { sources: self.ends(key, i, j), target: j },
                            b: Side { sources: self.ends(key, j, i), target: i },
                        });
                    }
                }
            }
            if encoding == 2 {
                for &u in &writers {
                    if let Some(v) = self.successor(key, u) {
                        members(self.readers(key, u)).filter(|&t| t != v).for_each(|t| rows[t] |= 1 << v);
                    }
                }
                let head = |&g: &usize| writers.iter().all(|&u| self.successor(key, u) != Some(g));
                let tail = |mut u: usize| {
                    while let Some(v) = self.successor(key, u) {
                        u = v;
                    }
                    u
                };
                let chains: Vec<(usize, usize)> = writers.iter().copied().filter(head).map(|g| (g, tail(g))).collect();
                for (at, &(g, p)) in chains.iter().enumerate() {
                    for &(h, q) in &chains[at + 1..] {
                        list.push(Constraint {
                            a: Side { sources: self.ends(key, p, h), target: h },
                            b: Side { sources: self.ends(key, q, g), target: g },
                        });
                    }
                }
            }
        }
        let mut polygraph = Polygraph { rows, list };
        if pruning == 1 {
            polygraph.prune();
        }
        polygraph
    }

    /// The first legal order, place by place: the lowest number after which the polygraph still has an acyclic selection.
    pub fn first_by_walks(&self, encoding: u8) -> Option<Vec<usize>> {
        let mut polygraph = self.polygraph(encoding, 0);
        let mut order = Vec::new();
        if !polygraph.selectable() {
            return None;
        }
        while order.len() < self.count() {
            let rest: Vec<usize> = (0..self.count()).filter(|t| !order.contains(t)).collect();
            let next = rest.iter().copied().find(|&x| {
                let mut tried = Polygraph { rows: polygraph.rows, list: polygraph.list.clone() };
                rest.iter().filter(|&&v| v != x).for_each(|&v| tried.rows[x] |= 1 << v);
                tried.selectable() && {
                    polygraph = tried;
                    true
                }
            })?;
            order.push(next);
        }
        Some(order)
    }
}

impl Polygraph {
    /// Rows with a bit for each number that is reached by one or more edges.
    fn reached(&self) -> [u32; 32] {
        let mut rows = self.rows;
        for k in 0..32 {
            for i in 0..32 {
                if rows[i] >> k & 1 == 1 {
                    rows[i] |= rows[k];
                }
            }
        }
        rows
    }

    fn add(&mut self, side: Side) {
        members(side.sources).for_each(|s| self.rows[s] |= 1 << side.target);
    }

    pub fn prune(&mut self) {
        loop {
            let before = self.list.len();
            let mut reached = self.reached();
            for c in std::mem::take(&mut self.list) {
                let closed = |side: Side| (reached[side.target] | 1 << side.target) & side.sources != 0;
                if closed(c.a) || closed(c.b) {
                    self.add(if closed(c.a) { c.b } else { c.a });
                    reached = self.reached();
                } else {
                    self.list.push(c);
                }
            }
            if self.list.len() == before {
                return;
            }
        }
    }

    /// Has it an acyclic selection?
    fn selectable(&self) -> bool {
        let mut pruned = Polygraph { rows: self.rows, list: self.list.clone() };
        pruned.prune();
        let reached = pruned.reached();
        if (0..32).any(|i| reached[i] >> i & 1 == 1) {
            return false;
        }
        if pruned.list.is_empty() {
            return true;
        }
        let c = pruned.list.remove(0);
        [c.a, c.b].into_iter().any(|side| {
            let mut chosen = Polygraph { rows: pruned.rows, list: pruned.list.clone() };
            chosen.add(side);
            chosen.selectable()
        })
    }

    /// As beaconcrumb_encode writes it.
    pub fn bytes(&self) -> Vec<u8> {
        let mut out = (self.list.len() as u16).to_le_bytes().to_vec();
        self.rows.iter().for_each(|row| out.extend(row.to_le_bytes()));
        for c in &self.list {
            for side in [c.a, c.b] {
                out.extend(side.sources.to_le_bytes());
                out.push(side.target as u8);
            }
        }
        out
    }
}

//! The placement search: put down the lowest transaction whose reads are explained, one after another, and go back when stuck.

/// Placements after which it gives up.
pub const CAP: u32 = 200_000;

pub enum Placed {
    Order,
    NoOrder,
    GaveUp,
}

struct Own {
    /// The transaction of the same cabinet before this one, as a mask.
    after: u32,
    reads: Vec<(u8, u16)>,
    writes: Vec<(u8, u16)>,
}

struct Search<'a> {
    own: &'a [Own],
    latest: [u16; 32],
    left: u32,
    count: u32,
    order: &'a mut [u8],
}

impl Search<'_> {
    fn from(&mut self, place: usize) -> Placed {
        if place == self.own.len() {
            return Placed::Order;
        }
        let mut left = self.left;
        while left != 0 {
            let t = left.trailing_zeros() as usize;
            left &= left - 1;
            let own = &self.own[t];
            if own.after & self.left != 0 || own.reads.iter().any(|&(key, from)| self.latest[key as usize & 31] != from) {
                continue;
            }
            if self.count == CAP {
                return Placed::GaveUp;
            }
            self.count += 1;
            let before = self.latest;
            for &(key, _) in &own.writes {
                self.latest[key as usize & 31] = t as u16;
            }
            self.left &= !(1 << t);
            self.order[place] = t as u8;
            match self.from(place + 1) {
                Placed::NoOrder => {}
                end => return end,
            }
            self.left |= 1 << t;
            self.latest = before;
        }
        Placed::NoOrder
    }
}

/// The first legal order of a log that Load takes, with its table.
pub fn decide(log: &[u8], order: &mut [u8], table: &mut [u8]) -> Placed {
    let t_count = log[0] as usize;
    let mut last = [0u32; 16];
    let mut own = Vec::with_capacity(t_count);
    let mut body = 4 + 4 * t_count;
    for t in 0..t_count {
        let entry = &log[4 + 4 * t..];
        let cabinet = entry[0] as usize;
        let mut one = Own { after: last[cabinet], reads: Vec::new(), writes: Vec::new() };
        last[cabinet] = 1 << t;
        for _ in 0..entry[1] {
            let argument = u16::from_le_bytes([log[body + 2], log[body + 3]]);
            let key = log[body + 1];
            if log[body] == 1 {
                one.writes.push((key, argument));
            } else if one.writes.iter().all(|&(written, _)| written != key) {
                // a read of a key written before is a read-back: that write explains it
                one.reads.push((key, argument));
            }
            body += 4;
        }
        own.push(one);
    }
    let mut search = Search { own: &own, latest: [65535; 32], left: ((1u64 << t_count) - 1) as u32, count: 0, order };
    let end = search.from(0);
    if matches!(end, Placed::Order) {
        table[..64].fill(0);
        for &t in &order[..t_count] {
            for &(key, value) in &own[t as usize].writes {
                table[2 * key as usize..2 * key as usize + 2].copy_from_slice(&value.to_le_bytes());
            }
        }
    }
    end
}

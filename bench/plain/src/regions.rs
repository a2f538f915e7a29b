//! Connected sets of regions as an oracle.
use crate::oracle::{Coded, Step, Walking};
use crate::refusal::Refusal;

/// The regions and which of them touch: bit j of row i is set where i and j do.
pub struct Map {
    n: u32,
    rows: [u64; 64],
}

impl Map {
    pub fn new(n: u32) -> Result<Self, Refusal> {
        if (1..=64).contains(&n) {
            Ok(Self { n, rows: [0; 64] })
        } else {
            Err(Refusal::OutOfRange)
        }
    }

    /// Takes one pair more of regions that touch.
    pub fn add(&mut self, a: u32, b: u32) -> Result<(), Refusal> {
        if a >= self.n || b >= self.n {
            return Err(Refusal::OutOfRange);
        }
        if a == b {
            return Err(Refusal::BadPair);
        }
        self.rows[a as usize] |= 1 << b;
        self.rows[b as usize] |= 1 << a;
        Ok(())
    }

    /// Whether any two of the ends, members of the set, are joined by a chain of members: a flood
    /// fill from the lowest end, until all ends are reached or nothing is left to look at.
    fn joins(&self, set: u64, ends: u64) -> bool {
        let mut frontier = ends & ends.wrapping_neg();
        let mut rest = set ^ frontier;
        while rest & ends != 0 {
            if frontier == 0 {
                return false;
            }
            let reached = self.rows[frontier.trailing_zeros() as usize] & rest;
            rest ^= reached;
            frontier = (frontier & (frontier - 1)) | reached;
        }
        true
    }

    /// Whether a connected set stays so when one region is put in or taken out. Put in, it must
    /// touch a member; taken out, the members that it touches must still be joined.
    fn stays_connected(&self, set: u64, region: usize) -> bool {
        let row = self.rows[region];
        let rest = set & !(1 << region);
        if rest == set {
            set == 0 || row & set != 0
        } else {
            self.joins(rest, row & rest)
        }
    }

    fn is_object(&self, set: u64) -> bool {
        (self.n == 64 || set >> self.n == 0) && self.joins(set, set)
    }
}

/// A map with the current set, and the set that the last step left, which needs no judging again.
pub struct Regions {
    map: Map,
    set: u64,
    left: u64,
}

impl Regions {
    pub fn new(map: Map) -> Self {
        Self {
            map,
            set: 0,
            left: 0,
        }
    }
}

impl Walking for Regions {
    fn width(&self) -> usize {
        self.map.n as usize
    }

    fn height(&self) -> u32 {
        self.map.n
    }

    fn rank(&self) -> u32 {
        self.set.count_ones()
    }

    fn home(&self) -> Option<usize> {
        let mut rest = self.set;
        while rest != 0 {
            let member = rest.trailing_zeros() as usize;
            if self.map.stays_connected(self.set, member) {
                return Some(member);
            }
            rest &= rest - 1;
        }
        None
    }

    fn step(&mut self, slot: usize) -> Result<Step, Refusal> {
        if slot >= self.width() {
            return Err(Refusal::SlotRange);
        }
        let turned = self.set ^ (1 << slot);
        if turned != self.left && !self.map.stays_connected(self.set, slot) {
            return Ok(Step::Vacant);
        }
        self.left = self.set;
        self.set = turned;
        Ok(Step::Back(slot))
    }
}

impl Coded for Regions {
    fn size(&self) -> usize {
        8
    }

    fn put(&self, buffer: &mut [u8]) -> Result<(), Refusal> {
        let front = buffer.first_chunk_mut().ok_or(Refusal::BufferShort)?;
        *front = self.set.to_le_bytes();
        Ok(())
    }

    fn take(&mut self, row: &[u8]) -> Result<(), Refusal> {
        let code = row.try_into().map_err(|_| Refusal::NotACode)?;
        let set = u64::from_le_bytes(code);
        if !self.map.is_object(set) {
            return Err(Refusal::NotACode);
        }
        self.set = set;
        Ok(())
    }
}

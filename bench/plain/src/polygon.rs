//! Triangulations of a convex polygon as an oracle.
use crate::oracle::{Coded, Step, Walking};
use crate::refusal::Refusal;

/// The bytes of a code.
const SIZE: usize = 35;

/// The pairs of corners below 24, in the order of their numbers.
const PAIRS: [(u32, u32); 276] = {
    let mut pairs = [(0, 1); 276];
    let mut e = 1;
    while e < 276 {
        let (a, b) = pairs[e - 1];
        pairs[e] = if a + 1 < b { (a + 1, b) } else { (0, b + 1) };
        e += 1;
    }
    pairs
};

/// How many pairs n corners have.
fn pair_total(n: u32) -> usize {
    (n * (n - 1) / 2) as usize
}

/// The number of the pair (a, b), a < b.
fn pair_number(a: u32, b: u32) -> usize {
    pair_total(b) + a as usize
}

/// A polygon of n corners with the current triangulation: bit b of row a is set where the corners
/// a and b are joined by a side or a diagonal.
pub struct Polygon {
    n: u32,
    width: usize,
    rows: [u32; 24],
}

/// Parts the corners a and b if they are joined, and joins them if they are not.
fn switch(rows: &mut [u32; 24], a: u32, b: u32) {
    rows[a as usize] ^= 1 << b;
    rows[b as usize] ^= 1 << a;
}

/// The rows of the sides alone.
fn side_rows(n: u32) -> [u32; 24] {
    let mut rows = [0; 24];
    for a in 0..n {
        switch(&mut rows, a, (a + 1) % n);
    }
    rows
}

/// Whether no edge leaves the corners between a and b for those outside.
fn is_free(rows: &[u32; 24], a: u32, b: u32) -> bool {
    let span = (1 << (b + 1)) - (1 << a);
    rows[a as usize + 1..b as usize]
        .iter()
        .all(|row| row & !span == 0)
}

impl Polygon {
    /// A polygon of n corners, standing at its root.
    pub fn new(n: u32) -> Result<Self, Refusal> {
        if !(3..=24).contains(&n) {
            return Err(Refusal::OutOfRange);
        }
        let mut rows = side_rows(n);
        for b in 2..n - 1 {
            switch(&mut rows, 0, b);
        }
        let width = pair_total(n);
        Ok(Self { n, width, rows })
    }

    pub fn corners(&self) -> u32 {
        self.n
    }

    /// Whether the pair (a, b), a < b < n, is no side.
    fn is_diagonal(&self, a: u32, b: u32) -> bool {
        b - a > 1 && b - a < self.n - 1
    }
}

impl Walking for Polygon {
    fn width(&self) -> usize {
        self.width
    }

    fn height(&self) -> u32 {
        self.n - 3
    }

    /// Each step home joins one corner more to corner 0: the rank counts those that are not.
    fn rank(&self) -> u32 {
        self.n - 1 - self.rows[0].count_ones()
    }

    /// The corners around the first gap in the row of corner 0 are joined, and are the home slot.
    fn home(&self) -> Option<usize> {
        let apart = ((1 << self.n) - 2) ^ self.rows[0];
        if apart == 0 {
            return None;
        }
        let first = apart.trailing_zeros();
        let next = first + (self.rows[0] >> first).trailing_zeros();
        Some(pair_number(first - 1, next))
    }

    /// The two corners joined to both ends of a diagonal are the ends of the one that comes.
    fn step(&mut self, slot: usize) -> Result<Step, Refusal> {
        if slot >= self.width() {
            return Err(Refusal::SlotRange);
        }
        let (a, b) = PAIRS[slot];
        let row = self.rows[a as usize];
        if row >> b & 1 == 0 || !self.is_diagonal(a, b) {
            return Ok(Step::Vacant);
        }
        let both = row & self.rows[b as usize];
        let low = both.trailing_zeros();
        let high = (both & (both - 1)).trailing_zeros();
        switch(&mut self.rows, a, b);
        switch(&mut self.rows, low, high);
        Ok(Step::Back(pair_number(low, high)))
    }
}

impl Coded for Polygon {
    fn size(&self) -> usize {
        SIZE
    }

    fn put(&self, buffer: &mut [u8]) -> Result<(), Refusal> {
        let code: &mut [u8; SIZE] = buffer.first_chunk_mut().ok_or(Refusal::BufferShort)?;
        code.fill(0);
        for b in 2..self.n {
            // the lower ends of the diagonals at b: not the side to b - 1, nor that from 0 to n - 1
            let mut ends = self.rows[b as usize] & ((1 << (b - 1)) - 1);
            if b == self.n - 1 {
                ends &= !1;
            }
            // the pairs of b have numbers in a row, so that their bits stand together
            let place = pair_number(0, b);
            let bits = (ends << (place % 8)).to_le_bytes();
            for (byte, bits) in code[place / 8..].iter_mut().zip(bits) {
                *byte |= bits;
            }
        }
        Ok(())
    }

    /// A row is a code if its pairs are exactly the diagonals that none of them crosses.
    fn take(&mut self, row: &[u8]) -> Result<(), Refusal> {
        if row.len() != SIZE {
            return Err(Refusal::NotACode);
        }
        let has = |e: usize| row[e / 8] >> (e % 8) & 1 == 1;
        let width = self.width;
        let mut rows = side_rows(self.n);
        for (e, &(a, b)) in PAIRS[..width].iter().enumerate() {
            if has(e) && self.is_diagonal(a, b) {
                switch(&mut rows, a, b);
            }
        }
        let fits = PAIRS[..width]
            .iter()
            .enumerate()
            .all(|(e, &(a, b))| has(e) == (self.is_diagonal(a, b) && is_free(&rows, a, b)));
        if !fits || (width..8 * SIZE).any(has) {
            return Err(Refusal::NotACode);
        }
        self.rows = rows;
        Ok(())
    }
}

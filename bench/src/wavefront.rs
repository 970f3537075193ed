//! The values of four rows at a time, as a specialist in sweeps would have it in plain Rust: each row runs one column
//! behind the row before it, so the four cells of a step depend on none of each other and their sums overlap. A row
//! runs along the last dimension; rows come in index order, of the whole nest or of a tile. Rows in which no distance
//! reads the row itself have no chain of sums, and go one by one.

use crate::plain::Nest;
use std::array::from_fn;

const ROWS: usize = 4;

/// rows to be given values, kept until one comes that other distances read in, or that stands elsewhere
pub struct Wavefront<'a> {
    nest: &'a Nest,
    back: [usize; 8],
    source: &'a [u32],
    values: &'a mut [u32],
    /// the last component at which all rows start, and their length
    column: usize,
    width: usize,
    /// of the rows kept: the first cell, the cells from one to the next, how many; the distances that read, as bits
    start: usize,
    stride: usize,
    count: usize,
    reading: u8,
    /// the index of the last row, and the distances that read as far as its dimensions up to each go
    at: [usize; 4],
    inside: [u8; 4],
}

/// the distances that read in a group of rows, and what the others add
struct Readers<const D: usize> {
    back: [usize; D],
    weight: [u32; D],
    outside: u64,
    shift: u32,
}

impl<'a> Wavefront<'a> {
    pub fn new(
        nest: &'a Nest, back: [usize; 8], source: &'a [u32], values: &'a mut [u32], column: usize, width: usize,
    ) -> Wavefront<'a> {
        // no component is as large: the first row finds all of them new
        let (at, inside) = ([usize::MAX; 4], [0; 4]);
        Wavefront { nest, back, source, values, column, width, start: 0, stride: 0, count: 0, reading: 0, at, inside }
    }

    /// takes the next row, of index `at`, whose first cell is `cell`
    #[inline]
    pub fn row(&mut self, at: &[usize; 4], cell: usize) {
        let reading = self.readers_at(at);
        let next = self.count == 1 || (self.count > 1 && cell == self.start + self.count * self.stride);
        if reading != self.reading || !next {
            self.finish();
            (self.start, self.reading) = (cell, reading);
        }
        if self.count == 1 {
            self.stride = cell - self.start;
        }
        self.count += 1;
    }

    /// the distances that read in the row of an index; only dimensions from the first new component on are looked at
    fn readers_at(&mut self, at: &[usize; 4]) -> u8 {
        let nest = self.nest;
        let last = nest.n - 1;
        let from = (0..last).find(|&j| at[j] != self.at[j]).unwrap_or(last);
        for j in from..last {
            let mut inside = if j == 0 { u8::MAX } else { self.inside[j - 1] };
            for (d, c) in nest.components[..nest.distances].iter().enumerate() {
                inside &= !(u8::from(at[j] < c[j]) << d);
            }
            (self.at[j], self.inside[j]) = (at[j], inside);
        }
        self.inside[last - 1] & ((1u16 << nest.distances) - 1) as u8
    }

    /// gives the rows kept their values
    pub fn finish(&mut self) {
        match self.reading.count_ones() {
            _ if self.count == 0 => {}
            0 => self.group::<0>(),
            1 => self.group::<1>(),
            2 => self.group::<2>(),
            3 => self.group::<3>(),
            4 => self.group::<4>(),
            5 => self.group::<5>(),
            6 => self.group::<6>(),
            7 => self.group::<7>(),
            _ => self.group::<8>(),
        }
        self.count = 0;
    }

    /// the rows kept, D distances reading in them; first the columns that reach over the boundary, in all rows
    fn group<const D: usize>(&mut self) {
        let nest = self.nest;
        let last = nest.n - 1;
        let boundary = u64::from(nest.boundary);
        let mut readers = Readers { back: [0; D], weight: [0; D], outside: 0, shift: nest.shift };
        // from which last component on each reads a cell; whether one reads the row itself
        let mut first = [0; D];
        let mut chained = false;
        let mut found = 0;
        for d in 0..nest.distances {
            if self.reading >> d & 1 == 1 {
                first[found] = nest.components[d][last];
                readers.back[found] = self.back[d];
                readers.weight[found] = nest.weights[d] as u32;
                chained |= self.back[d] == first[found];
                found += 1;
            } else {
                readers.outside += nest.weights[d] * boundary;
            }
        }
        let all = first.iter().fold(0, |all, &first| all.max(first)).saturating_sub(self.column).min(self.width);
        for q in 0..self.count {
            self.edge(&readers, &first, self.start + q * self.stride, all);
        }
        let (start, stride, width) = (self.start + all, self.stride, self.width - all);
        let (source, values) = (self.source, &mut *self.values);
        if width == 0 {
            return;
        }
        let mut q = 0;
        while q < self.count {
            let start = start + q * stride;
            let rows = if chained && width >= ROWS { (self.count - q).min(ROWS) } else { 1 };
            match rows {
                1 if !chained => readers.apart(source, values, start, width),
                1 => readers.chain(source, values, start, width),
                2 => readers.rows::<2>(source, values, start, stride, width),
                3 => readers.rows::<3>(source, values, start, stride, width),
                _ => readers.rows::<4>(source, values, start, stride, width),
            }
            q += rows;
        }
    }

    /// the first columns of a row, in which some distance reads the boundary
    fn edge<const D: usize>(&mut self, readers: &Readers<D>, first: &[usize; D], start: usize, width: usize) {
        for x in 0..width {
            let mut sum = readers.outside + u64::from(self.source[start + x]);
            for d in 0..D {
                let outside = self.column + x < first[d];
                let word = if outside { self.nest.boundary } else { self.values[start + x - readers.back[d]] };
                sum += u64::from(readers.weight[d]) * u64::from(word);
            }
            self.values[start + x] = (sum >> readers.shift) as u32;
        }
    }
}

impl<const D: usize> Readers<D> {
    /// a row, or a part of one, in which every reader reads a cell
    #[inline]
    fn chain(&self, source: &[u32], values: &mut [u32], start: usize, width: usize) {
        for c in start..start + width {
            let sum = self.outside + u64::from(source[c]);
            let sum = (0..D).fold(sum, |sum, d| sum + u64::from(self.weight[d]) * u64::from(values[c - self.back[d]]));
            values[c] = (sum >> self.shift) as u32;
        }
    }

    /// a row of which no cell reads another: all that is read lies before the row
    #[inline]
    fn apart(&self, source: &[u32], values: &mut [u32], start: usize, width: usize) {
        let (before, values) = values.split_at_mut(start);
        let reads: [&[u32]; D] = from_fn(|d| &before[start - self.back[d]..][..width]);
        let source = &source[start..][..width];
        for (x, value) in values[..width].iter_mut().enumerate() {
            let sum = self.outside + u64::from(source[x]);
            let sum = (0..D).fold(sum, |sum, d| sum + u64::from(self.weight[d]) * u64::from(reads[d][x]));
            *value = (sum >> self.shift) as u32;
        }
    }

    /// R rows of at least R columns: the corners before and behind the steps, in which all rows take part
    #[inline]
    fn rows<const R: usize>(&self, source: &[u32], values: &mut [u32], start: usize, stride: usize, width: usize) {
        for q in 0..R - 1 {
            self.chain(source, values, start + q * stride, R - 1 - q);
        }
        self.steps::<R>(source, values, start + R - 1, stride - 1, width + 1 - R);
        for q in 1..R {
            self.chain(source, values, start + q * stride + width - q, q);
        }
    }

    /// steps of R cells: row q is at `place + q * jump`
    #[inline(never)]
    fn steps<const R: usize>(&self, source: &[u32], values: &mut [u32], start: usize, jump: usize, count: usize) {
        let end = start + count;
        // every place that is read or written lies between these
        assert!(self.back.iter().all(|&back| back <= start));
        assert!(end > start && end - 1 + (R - 1) * jump < values.len().min(source.len()));
        let (weight, outside, shift) = (self.weight.map(u64::from), self.outside, self.shift & 63);
        let source = source.as_ptr();
        let values = values.as_mut_ptr();
        let reads = self.back.map(|back| values.wrapping_sub(back));
        for place in start..end {
            // SAFETY: place + q * jump is between start and the last place, and so is below both lengths; a reader's
            // step back from it is at least start - back, which is not below 0.
            unsafe {
                let sums: [u64; R] = from_fn(|q| {
                    let place = place + q * jump;
                    let sum = outside + u64::from(*source.add(place));
                    (0..D).fold(sum, |sum, d| sum + weight[d] * u64::from(*reads[d].wrapping_add(place)))
                });
                for q in 0..R {
                    *values.add(place + q * jump) = (sums[q] >> shift) as u32;
                }
            }
        }
    }
}

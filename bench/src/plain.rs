//! The calls in plain Rust, for timing: every call reads the recipe, sizes the areas and tests every record and mark
//! again, as the library's must. No heap. The lengths of all messages stand in one table of slots, a slot being a
//! tile and a direction, or a tile and a dimension on the indirect route; a tile's row of it depends only on how near
//! the tile is to the end of each dimension, and there to its beginning, so one row is counted for each kind of tile
//! and copied.

use crate::engine::{Areas, Engine, Progress, Request, Route, HOPS_WORDS, MESSAGE_WORDS, SUMMARY_WORDS};
use crate::wavefront::Wavefront;
use std::cmp::Ordering;

const SLOTS: usize = 7 * 1024;

pub struct Nest {
    pub n: usize,
    /// spread dimensions
    m: usize,
    lengths: [usize; 4],
    tile: [usize; 4],
    counts: [usize; 4],
    pub distances: usize,
    /// some record of kind 4 needs no two bytes
    narrow: bool,
    pub components: [[usize; 4]; 8],
    pub weights: [u64; 8],
    pub shift: u32,
    pub boundary: u32,
    /// tiles in each dimension
    across: [usize; 4],
    /// cells from one index to the next, in each dimension, and tiles
    step: [usize; 4],
    tile_step: [usize; 4],
    cells: usize,
    tiles: usize,
    processors: usize,
    /// slots of a tile: 2^m - 1, or m on the indirect route
    directions: usize,
    /// the direction with a one wherever there is more than one processor
    wired: usize,
}

fn half(record: &[u8], at: usize) -> usize {
    usize::from(record[at]) | usize::from(record[at + 1]) << 8
}

fn read(encoded: &[u8]) -> Result<Nest, u32> {
    if encoded.is_empty() || encoded.len() % 16 != 0 {
        return Err(1);
    }
    let mut nest = parse(encoded).ok_or(2u32)?;
    let n = nest.n;
    if nest.lengths[..n].iter().any(|&x| x == 0 || x > 1024) {
        return Err(3);
    }
    nest.cells = nest.lengths[..n].iter().product();
    if nest.cells > 16384 {
        return Err(4);
    }
    if nest.narrow {
        return Err(18);
    }
    for d in 0..nest.distances {
        let c = nest.components[d];
        if c == [0; 4] || nest.components[..d].contains(&c) || c[n..].iter().any(|&x| x != 0) {
            return Err(5);
        }
    }
    for j in 0..n {
        let k = nest.tile[j];
        if k == 0 || k > 1024 || nest.components[..nest.distances].iter().any(|c| c[j] > k) {
            return Err(6);
        }
    }
    nest.m = nest.counts[..n].iter().take_while(|&&p| p != 0).count();
    if nest.m == 0 || nest.counts[nest.m..n].iter().any(|&p| p != 0) {
        return Err(16);
    }
    if nest.m == n {
        return Err(17);
    }
    nest.processors = 1;
    for &p in &nest.counts[..nest.m] {
        nest.processors *= p;
        if nest.processors > 64 {
            return Err(7);
        }
    }
    nest.tiles = 1;
    for j in 0..n {
        nest.across[j] = nest.lengths[j].div_ceil(nest.tile[j]);
        nest.tiles *= nest.across[j];
    }
    if nest.tiles > 1024 {
        return Err(8);
    }
    let (mut cells, mut tiles) = (1, 1);
    for j in (0..n).rev() {
        nest.step[j] = cells;
        nest.tile_step[j] = tiles;
        cells *= nest.lengths[j];
        tiles *= nest.across[j];
    }
    nest.directions = (1 << nest.m) - 1;
    nest.wired = nest.counts[..nest.m].iter().fold(0, |mask, &p| mask << 1 | usize::from(p > 1));
    Ok(nest)
}

fn parse(encoded: &[u8]) -> Option<Nest> {
    let mut nest = Nest {
        n: 0,
        m: 0,
        lengths: [0; 4],
        tile: [0; 4],
        counts: [0; 4],
        distances: 0,
        narrow: false,
        components: [[0; 4]; 8],
        weights: [0; 8],
        shift: 0,
        boundary: 0,
        across: [1; 4],
        step: [0; 4],
        tile_step: [0; 4],
        cells: 0,
        tiles: 0,
        processors: 0,
        directions: 0,
        wired: 0,
    };
    let last = encoded.len() / 16 - 1;
    for (place, record) in encoded.chunks_exact(16).enumerate() {
        let named = if record[0] == 4 { 12 } else { 8 };
        if record[named..].iter().any(|&byte| byte != 0) {
            return None;
        }
        match record[0] {
            1 if record[1] == 0 && nest.distances == 0 && nest.n < 4 => {
                nest.lengths[nest.n] = half(record, 2);
                nest.tile[nest.n] = half(record, 4);
                nest.counts[nest.n] = half(record, 6);
                nest.n += 1;
            }
            2 if record[1] == 0 && nest.distances < 8 => {
                nest.components[nest.distances] = [2, 3, 4, 5].map(|at| usize::from(record[at]));
                nest.weights[nest.distances] = half(record, 6) as u64;
                nest.distances += 1;
            }
            4 if record[1] == 0 && nest.distances < 8 => {
                let components = [2, 4, 6, 8].map(|at| half(record, at));
                nest.narrow |= components.iter().all(|&component| component < 256);
                nest.components[nest.distances] = components;
                nest.weights[nest.distances] = half(record, 10) as u64;
                nest.distances += 1;
            }
            3 if place == last && record[1] < 32 && record[2] == 0 && record[3] == 0 => {
                nest.shift = u32::from(record[1]);
                nest.boundary = (half(record, 4) | half(record, 6) << 16) as u32;
                return (nest.n >= 2 && nest.distances >= 1).then_some(nest);
            }
            _ => return None,
        }
    }
    None
}

/// cells of one dimension of a tile for which the same distances leave the nest and the same leave the tile
#[derive(Clone, Copy, Default)]
struct Run {
    cells: u16,
    out: u8,
    cross: u8,
}

const RUNS: usize = 17;

/// the runs of tile `tile` in dimension j
fn runs(nest: &Nest, j: usize, tile: usize, into: &mut [Run; RUNS]) -> usize {
    let (k, length) = (nest.tile[j], nest.lengths[j]);
    let start = tile * k;
    let end = (start + k).min(length);
    let mut found = 0;
    let mut from = start;
    while from < end {
        let (mut out, mut cross) = (0, 0);
        let mut to = end;
        for (d, c) in nest.components[..nest.distances].iter().enumerate() {
            // from these components on the distance leaves the nest, the tile
            for (border, mask) in [(length.saturating_sub(c[j]), &mut out), (start + k - c[j], &mut cross)] {
                if from >= border {
                    *mask |= 1 << d;
                } else {
                    to = to.min(border);
                }
            }
        }
        into[found] = Run { cells: (to - from) as u16, out, cross };
        found += 1;
        from = to;
    }
    found
}

/// how near a tile is to the end of dimension j: 0 neither, 1 last but one, 2 last
fn kind(nest: &Nest, j: usize, tile: usize) -> usize {
    (tile + 3).saturating_sub(nest.across[j])
}

struct Kinds {
    runs: [[([Run; RUNS], usize); 3]; 4],
}

/// counts the cells of each direction for one kind of tile
fn count(
    nest: &Nest, kinds: &Kinds, of: &[usize; 4], j: usize, cells: u32, alive: u8, crossed: [u8; 3], row: &mut [u32; 8],
) {
    if alive == 0 {
        return;
    }
    if j == nest.n {
        let mut hit = 0u8;
        for d in 0..nest.distances {
            if alive >> d & 1 == 1 {
                let v = crossed[..nest.m].iter().fold(0, |v, mask| v << 1 | (mask >> d & 1));
                hit |= 1 << v;
            }
        }
        for (v, words) in row.iter_mut().enumerate() {
            *words += u32::from(hit >> v & 1) * cells;
        }
        return;
    }
    let (runs, found) = &kinds.runs[j][of[j]];
    for run in &runs[..*found] {
        let mut crossed = crossed;
        if j < nest.m {
            crossed[j] = run.cross;
        }
        count(nest, kinds, of, j + 1, cells * u32::from(run.cells), alive & !run.out, crossed, row);
    }
}

/// the words of every slot
fn fill(nest: &Nest, table: &mut [u16]) {
    let mut kinds = Kinds { runs: [[([Run::default(); RUNS], 0); 3]; 4] };
    for j in 0..nest.n {
        for near in 0..nest.across[j].min(3) {
            let (into, found) = &mut kinds.runs[j][2 - near];
            *found = runs(nest, j, nest.across[j] - 1 - near, into);
        }
    }
    let alive = ((1u16 << nest.distances) - 1) as u8;
    let mut known = [false; 81];
    let mut rows = [[0u32; 8]; 81];
    let mut at = [0usize; 4];
    for slots in table.chunks_exact_mut(nest.directions) {
        let mut of = [0; 4];
        let mut number = 0;
        for j in 0..nest.n {
            of[j] = kind(nest, j, at[j]);
            number = number * 3 + of[j];
        }
        if !known[number] {
            known[number] = true;
            count(nest, &kinds, &of, 0, 1, alive, [0; 3], &mut rows[number]);
        }
        for (direction, (slot, words)) in slots.iter_mut().zip(&rows[number][1..]).enumerate() {
            *slot = if (direction + 1) & nest.wired != 0 { *words as u16 } else { 0 };
        }
        advance(&mut at, &nest.across, nest.n);
    }
}

/// the same on the indirect route, where a tile that is the first in a dimension has nothing to pass on from there
fn fill_along(nest: &Nest, table: &mut [u16]) {
    let mut known = [false; 1296];
    let mut rows = [[0u16; 3]; 1296];
    let mut at = [0usize; 4];
    for slots in table.chunks_exact_mut(nest.m) {
        let number = (0..nest.n).fold(0, |number, j| number * 6 + kind(nest, j, at[j]) + 3 * usize::from(at[j] == 0));
        if !known[number] {
            known[number] = true;
            let wired = |q: &(usize, &mut u16)| nest.counts[q.0] > 1;
            for (q, words) in rows[number][..nest.m].iter_mut().enumerate().filter(wired) {
                passed_rows(nest, &at, q, |_, width| *words += width as u16);
            }
        }
        slots.copy_from_slice(&rows[number][..nest.m]);
        advance(&mut at, &nest.across, nest.n);
    }
}

/// the next index of a box, in index order
fn advance(at: &mut [usize; 4], sides: &[usize; 4], n: usize) {
    for j in (0..n).rev() {
        at[j] += 1;
        if at[j] < sides[j] {
            return;
        }
        at[j] = 0;
    }
}

fn split(mut number: usize, sides: &[usize; 4], n: usize) -> [usize; 4] {
    let mut index = [0; 4];
    for j in (0..n).rev() {
        index[j] = number % sides[j];
        number /= sides[j];
    }
    index
}

/// the linear step back of each distance
fn steps_back(nest: &Nest) -> [usize; 8] {
    let mut back = [0; 8];
    for d in 0..nest.distances {
        back[d] = (0..nest.n).map(|j| nest.components[d][j] * nest.step[j]).sum();
    }
    back
}

/// a distance in one row: from which last component on it reads a cell, how far back, its weight
#[derive(Clone, Copy, Default)]
struct Reader {
    first: usize,
    back: usize,
    weight: u64,
}

/// the values of a row, `width` cells from `cell` on, whose index is `at`. What a distance adds that reads no cell of
/// the row is the same throughout; once all others read, no test is left.
#[inline(always)]
fn row(nest: &Nest, back: &[usize; 8], at: &[usize; 4], source: &[u32], values: &mut [u32], cell: usize, width: usize) {
    let last = nest.n - 1;
    let boundary = u64::from(nest.boundary);
    let mut readers = [Reader::default(); 8];
    let mut found = 0;
    let mut outside = 0;
    for d in 0..nest.distances {
        let (c, weight) = (&nest.components[d], nest.weights[d]);
        if (0..last).all(|j| at[j] >= c[j]) {
            readers[found] = Reader { first: c[last], back: back[d], weight };
            found += 1;
        } else {
            outside += weight * boundary;
        }
    }
    let readers = &readers[..found];
    let all = readers.iter().map(|r| r.first).max().unwrap_or(0).saturating_sub(at[last]).min(width);
    for x in 0..all {
        let word = |r: &Reader| if at[last] + x < r.first { boundary } else { u64::from(values[cell + x - r.back]) };
        let sum = readers.iter().fold(outside + u64::from(source[cell + x]), |sum, r| sum + r.weight * word(r));
        values[cell + x] = (sum >> nest.shift) as u32;
    }
    for c in cell + all..cell + width {
        let read = |r: &Reader| r.weight * u64::from(values[c - r.back]);
        let sum = readers.iter().fold(outside + u64::from(source[c]), |sum, r| sum + read(r));
        values[c] = (sum >> nest.shift) as u32;
    }
}

/// how rows are given their values
#[derive(Clone, Copy)]
enum Rows {
    /// each for itself
    Single,
    /// four at a time
    Wavefront,
}

fn sweep(nest: &Nest, source: &[u32], grid: &mut [u32], rows: Rows) {
    let back = steps_back(nest);
    let last = nest.n - 1;
    let width = nest.lengths[last];
    let mut at = [0; 4];
    match rows {
        Rows::Single => {
            for cell in (0..nest.cells).step_by(width) {
                row(nest, &back, &at, source, grid, cell, width);
                advance(&mut at, &nest.lengths, last);
            }
        }
        Rows::Wavefront => {
            let mut wavefront = Wavefront::new(nest, back, source, grid, 0, width);
            for cell in (0..nest.cells).step_by(width) {
                wavefront.row(&at, cell);
                advance(&mut at, &nest.lengths, last);
            }
            wavefront.finish();
        }
    }
}

/// calls `each` with the number, the index and the width of every row of a tile, in index order
#[inline(always)]
fn rows_of(nest: &Nest, tile: &[usize; 4], each: impl FnMut(usize, &[usize; 4], usize)) {
    let mut start = [0; 4];
    let mut end = [1; 4];
    for j in 0..nest.n {
        start[j] = tile[j] * nest.tile[j];
        end[j] = (start[j] + nest.tile[j]).min(nest.lengths[j]);
    }
    rows_in(nest, &start, &end, each);
}

/// the same for the rows of a box that is not empty
#[inline(always)]
fn rows_in(nest: &Nest, start: &[usize; 4], end: &[usize; 4], mut each: impl FnMut(usize, &[usize; 4], usize)) {
    let last = nest.n - 1;
    let mut at = *start;
    loop {
        let cell: usize = (0..nest.n).map(|j| at[j] * nest.step[j]).sum();
        each(cell, &at, end[last] - start[last]);
        let mut j = last;
        loop {
            if j == 0 {
                return;
            }
            j -= 1;
            at[j] += 1;
            if at[j] < end[j] {
                break;
            }
            at[j] = start[j];
        }
    }
}

/// calls `each` with every cell of message (tile, direction), in index order
fn held(nest: &Nest, tile: &[usize; 4], direction: usize, mut each: impl FnMut(usize)) {
    rows_of(nest, tile, |row, at, width| {
        let last = nest.n - 1;
        // below which last component some distance puts a cell of the row there
        let end = |c: &[usize; 4]| {
            let there = (0..last).all(|j| {
                let reader = at[j] + c[j];
                let crosses = usize::from(reader >= (tile[j] + 1) * nest.tile[j]);
                reader < nest.lengths[j] && (j >= nest.m || crosses == direction >> (nest.m - 1 - j) & 1)
            });
            if there {
                nest.lengths[last].saturating_sub(c[last])
            } else {
                0
            }
        };
        let end = nest.components[..nest.distances].iter().map(end).max().unwrap_or(0);
        (row..row + width.min(end.saturating_sub(at[last]))).for_each(&mut each);
    })
}

/// the cells that a tile sends along dimension q for one distance: a box, from the first index to below the second.
/// Before q a cell stands where its reader is in the tile, in q it crosses, behind q it is in the tile itself.
fn passed_box(nest: &Nest, tile: &[usize; 4], q: usize, c: &[usize; 4]) -> ([usize; 4], [usize; 4]) {
    let (mut from, mut below) = ([0; 4], [1; 4]);
    for j in 0..nest.n {
        let start = tile[j] * nest.tile[j];
        let end = (start + nest.tile[j]).min(nest.lengths[j]);
        let inside = end.min(nest.lengths[j].saturating_sub(c[j]));
        (from[j], below[j]) = match j.cmp(&q) {
            Ordering::Less => (start.saturating_sub(c[j]), end.saturating_sub(c[j])),
            Ordering::Equal => (start + nest.tile[j] - c[j], inside),
            Ordering::Greater => (start, inside),
        };
    }
    (from, below)
}

/// calls `each` with the first cell and the width of every row of what a tile sends along dimension q, in index order
fn passed_rows(nest: &Nest, tile: &[usize; 4], q: usize, mut each: impl FnMut(usize, usize)) {
    let last = nest.n - 1;
    let mut boxes = [([0; 4], [0; 4]); 8];
    let mut found = 0;
    let (mut from, mut below) = ([usize::MAX; 4], [0; 4]);
    for c in &nest.components[..nest.distances] {
        let (low, high) = passed_box(nest, tile, q, c);
        if (0..nest.n).all(|j| low[j] < high[j]) {
            boxes[found] = (low, high);
            found += 1;
            (0..nest.n).for_each(|j| (from[j], below[j]) = (from[j].min(low[j]), below[j].max(high[j])));
        }
    }
    if found == 0 {
        return;
    }
    // the last dimension is not spread, so every box starts with the tile there
    rows_in(nest, &from, &below, |row, at, _| {
        let holds = |(low, high): &&([usize; 4], [usize; 4])| (0..last).all(|j| low[j] <= at[j] && at[j] < high[j]);
        let end = boxes[..found].iter().filter(holds).map(|(_, high)| high[last]).max().unwrap_or(from[last]);
        if end > from[last] {
            each(row, end - from[last]);
        }
    })
}

struct Plan<'a> {
    nest: Nest,
    route: Route,
    table: &'a [u16],
    messages: usize,
    words: usize,
}

impl<'a> Plan<'a> {
    fn new(encoded: &[u8], route: Route, table: &'a mut [u16; SLOTS]) -> Result<Plan<'a>, u32> {
        let mut nest = read(encoded)?;
        let table = match route {
            Route::Direct => {
                let table = &mut table[..nest.tiles * nest.directions];
                fill(&nest, table);
                table
            }
            Route::Indirect => {
                nest.directions = nest.m;
                let table = &mut table[..nest.tiles * nest.m];
                fill_along(&nest, table);
                table
            }
        };
        let mut plan = Plan { nest, route, table, messages: 0, words: 0 };
        (plan.messages, plan.words) = plan.before(plan.table.len());
        Ok(plan)
    }

    /// messages and words of the slots before this one
    fn before(&self, slot: usize) -> (usize, usize) {
        self.table[..slot]
            .iter()
            .fold((0, 0), |(messages, words), &x| (messages + usize::from(x != 0), words + usize::from(x)))
    }

    fn area(&self, areas: &Areas) -> bool {
        let Nest { cells, processors, .. } = self.nest;
        areas.source.len() != cells
            || areas.memories.len() != cells * processors
            || areas.buffer.len() != self.words
            || areas.progress.len() != processors
            || areas.status.len() != self.messages
    }

    /// tiles of a processor: its chains times the tiles of a chain
    fn tile_count(&self, processor: usize) -> usize {
        let nest = &self.nest;
        let at = split(processor, &nest.counts, nest.m);
        let chains: usize =
            (0..nest.m).map(|j| (nest.across[j] + nest.counts[j] - 1 - at[j]) / nest.counts[j]).product();
        chains * nest.across[nest.m..nest.n].iter().product::<usize>()
    }

    /// the index of a processor's tile number `finished`
    fn tile_of(&self, processor: usize, finished: usize) -> [usize; 4] {
        let nest = &self.nest;
        let at = split(processor, &nest.counts, nest.m);
        let mut own = nest.across;
        for j in 0..nest.m {
            own[j] = (nest.across[j] + nest.counts[j] - 1 - at[j]) / nest.counts[j];
        }
        let mut tile = split(finished, &own, nest.n);
        for j in 0..nest.m {
            tile[j] = tile[j] * nest.counts[j] + at[j];
        }
        tile
    }

    fn number(&self, tile: &[usize; 4]) -> usize {
        (0..self.nest.n).map(|j| tile[j] * self.nest.tile_step[j]).sum()
    }

    fn sends(&self, tile: &[usize; 4]) -> usize {
        let from = self.number(tile) * self.nest.directions;
        self.table[from..from + self.nest.directions].iter().filter(|&&words| words != 0).count()
    }

    fn unfit(&self, areas: &Areas) -> bool {
        let record = |(processor, record): (usize, &Progress)| {
            let tiles = self.tile_count(processor);
            let finished = record.finished as usize;
            if finished >= tiles {
                return finished == tiles && record.stage == 0 && record.sent == 0;
            }
            match record.stage {
                0 | 1 => record.sent == 0,
                2 => (record.sent as usize) < self.sends(&self.tile_of(processor, finished)),
                _ => false,
            }
        };
        !areas.progress.iter().enumerate().all(record) || areas.status.iter().any(|&mark| mark > 3)
    }

    /// how far a tile's slot reaches in dimension j, 0 or 1
    fn step(&self, place: usize, j: usize) -> usize {
        match self.route {
            Route::Direct => (place + 1) >> (self.nest.m - 1 - j) & 1,
            Route::Indirect => usize::from(place == j),
        }
    }

    /// calls `each` with every cell of a tile's slot, in index order
    fn held(&self, tile: &[usize; 4], place: usize, mut each: impl FnMut(usize)) {
        match self.route {
            Route::Direct => held(&self.nest, tile, place + 1, each),
            Route::Indirect => {
                passed_rows(&self.nest, tile, place, |row, width| (row..row + width).for_each(&mut each))
            }
        }
    }

    /// calls `each` with the slot, sending tile and its place in the tile's row of every message due at a tile
    fn dues(&self, tile: &[usize; 4], mut each: impl FnMut(usize, &[usize; 4], usize)) {
        let nest = &self.nest;
        // falling directions are rising senders
        'places: for place in (0..nest.directions).rev() {
            let mut sender = *tile;
            for j in 0..nest.m {
                let v = self.step(place, j);
                if sender[j] < v {
                    continue 'places;
                }
                sender[j] -= v;
            }
            let slot = self.number(&sender) * nest.directions + place;
            if self.table[slot] != 0 {
                each(slot, &sender, place);
            }
        }
    }

    fn waiting(&self, areas: &Areas, tile: &[usize; 4]) -> bool {
        let mut waiting = false;
        self.dues(tile, |slot, _, _| waiting |= areas.status[self.before(slot).0] != 2);
        waiting
    }

    fn gather(&self, areas: &mut Areas, tile: &[usize; 4], processor: usize) {
        let memory = &mut areas.memories[processor * self.nest.cells..][..self.nest.cells];
        self.dues(tile, |slot, sender, place| {
            let (message, offset) = self.before(slot);
            let mut words = areas.buffer[offset..].iter();
            self.held(sender, place, |cell| memory[cell] = *words.next().unwrap());
            areas.status[message] = 3;
        });
        areas.progress[processor].stage = 1;
    }

    fn calculate(&self, areas: &mut Areas, tile: &[usize; 4], processor: usize, rows: Rows) {
        let nest = &self.nest;
        let memory = &mut areas.memories[processor * nest.cells..][..nest.cells];
        let back = steps_back(nest);
        match rows {
            Rows::Single => {
                rows_of(nest, tile, |cell, at, width| row(nest, &back, at, &areas.source, memory, cell, width));
            }
            Rows::Wavefront => {
                let last = nest.n - 1;
                let column = tile[last] * nest.tile[last];
                let width = nest.tile[last].min(nest.lengths[last] - column);
                let mut wavefront = Wavefront::new(nest, back, &areas.source, memory, column, width);
                rows_of(nest, tile, |cell, at, _| wavefront.row(at, cell));
                wavefront.finish();
            }
        }
        self.sent(&mut areas.progress[processor], tile, 0);
    }

    fn send(&self, areas: &mut Areas, tile: &[usize; 4], processor: usize) {
        let record = &mut areas.progress[processor];
        let from = self.number(tile) * self.nest.directions;
        let mut row = self.table[from..from + self.nest.directions].iter().enumerate().filter(|(_, &words)| words != 0);
        let (place, _) = row.nth(record.sent as usize).expect("a fit record has messages left");
        let (message, offset) = self.before(from + place);
        let memory = &areas.memories[processor * self.nest.cells..][..self.nest.cells];
        let mut words = areas.buffer[offset..].iter_mut();
        self.held(tile, place, |cell| *words.next().unwrap() = memory[cell]);
        areas.status[message] = 1;
        let sent = record.sent + 1;
        self.sent(record, tile, sent);
    }

    fn sent(&self, record: &mut Progress, tile: &[usize; 4], sent: u32) {
        if (sent as usize) < self.sends(tile) {
            record.stage = 2;
            record.sent = sent;
        } else {
            *record = Progress { finished: record.finished + 1, stage: 0, sent: 0 };
        }
    }
}

const CELLS: usize = 16384;

/// the source from a file of soundings: one pass, the greatest day and survey of each cell kept beside its depth
fn soundings(file: &[u8], value: u32, source: &mut [u32]) -> Result<(), u32> {
    let mut keys = [0u64; CELLS];
    let mut depths = [value; CELLS];
    for record in file.chunks_exact(16) {
        let word = |at: usize| u32::from_le_bytes([record[at], record[at + 1], record[at + 2], record[at + 3]]);
        let cell = word(0) as usize;
        if cell >= source.len() {
            return Err(22);
        }
        let key = u64::from(word(4)) << 32 | u64::from(word(8));
        if key >= keys[cell] {
            keys[cell] = key;
            depths[cell] = word(12);
        }
    }
    source.copy_from_slice(&depths[..source.len()]);
    Ok(())
}

/// `Err(number)` where the line is true
fn refused(line: bool, number: u32) -> Result<(), u32> {
    if line {
        Err(number)
    } else {
        Ok(())
    }
}

/// a call: the recipe's plan is made, then the rest is done with it; gives the number
fn planned(encoded: &[u8], route: Route, rest: impl FnOnce(&Plan) -> Result<(), u32>) -> u32 {
    let mut table = [0; SLOTS];
    Plan::new(encoded, route, &mut table).and_then(|plan| rest(&plan)).err().unwrap_or(0)
}

/// the plain calls
pub struct Plain(Rows);

pub const PLAIN: Plain = Plain(Rows::Single);
pub const WAVEFRONT: Plain = Plain(Rows::Wavefront);

impl Engine for Plain {
    fn name(&self) -> String {
        match self.0 {
            Rows::Single => "plain Rust".into(),
            Rows::Wavefront => "wavefront".into(),
        }
    }

    fn has(&self, request: Request) -> bool {
        request == Request::Soundings
    }

    fn fresh(&self, encoded: &[u8], route: Route, areas: &mut Areas) -> u32 {
        planned(encoded, route, |plan| {
            refused(plan.area(areas), 9)?;
            areas.memories.fill(0);
            areas.buffer.fill(0);
            areas.progress.fill(Progress::default());
            areas.status.fill(0);
            Ok(())
        })
    }

    fn turn(&self, encoded: &[u8], route: Route, areas: &mut Areas, processor: u32) -> u32 {
        planned(encoded, route, |plan| {
            refused(plan.area(areas), 9)?;
            refused(plan.unfit(areas), 10)?;
            let processor = processor as usize;
            refused(processor >= plan.nest.processors, 11)?;
            let record = areas.progress[processor];
            refused(record.finished as usize == plan.tile_count(processor), 13)?;
            let tile = plan.tile_of(processor, record.finished as usize);
            match record.stage {
                0 => {
                    refused(plan.waiting(areas, &tile), 12)?;
                    plan.gather(areas, &tile, processor);
                }
                1 => plan.calculate(areas, &tile, processor, self.0),
                _ => plan.send(areas, &tile, processor),
            }
            Ok(())
        })
    }

    fn deliver(&self, encoded: &[u8], route: Route, areas: &mut Areas, message: u32) -> u32 {
        planned(encoded, route, |plan| {
            refused(plan.area(areas), 9)?;
            refused(plan.unfit(areas), 10)?;
            let mark = areas.status.get_mut(message as usize).ok_or(11u32)?;
            refused(*mark != 1, 14)?;
            *mark = 2;
            Ok(())
        })
    }

    fn collect(&self, encoded: &[u8], route: Route, areas: &mut Areas, grid: &mut [u32]) -> u32 {
        planned(encoded, route, |plan| {
            let nest = &plan.nest;
            refused(plan.area(areas) || grid.len() != nest.cells, 9)?;
            refused(plan.unfit(areas), 10)?;
            let left = |p: usize| (areas.progress[p].finished as usize) < plan.tile_count(p);
            refused((0..nest.processors).any(left), 15)?;
            // the last dimension is not spread, so a row has one processor
            let last = nest.n - 1;
            let mut at = [0; 4];
            for (cells, row) in grid.chunks_exact_mut(nest.lengths[last]).enumerate() {
                let processor =
                    (0..nest.m).fold(0, |number, j| number * nest.counts[j] + at[j] / nest.tile[j] % nest.counts[j]);
                row.copy_from_slice(&areas.memories[processor * nest.cells + cells * row.len()..][..row.len()]);
                advance(&mut at, &nest.lengths, last);
            }
            Ok(())
        })
    }

    fn sweep(&self, encoded: &[u8], source: &[u32], grid: &mut [u32]) -> u32 {
        let swept = read(encoded).and_then(|nest| {
            refused(source.len() != nest.cells || grid.len() != nest.cells, 9)?;
            sweep(&nest, source, grid, self.0);
            Ok(())
        });
        swept.err().unwrap_or(0)
    }

    fn summary(&self, encoded: &[u8], route: Route, out: &mut [u32; SUMMARY_WORDS]) -> u32 {
        *out = [0; SUMMARY_WORDS];
        planned(encoded, route, |plan| {
            let steps = 2 * (plan.nest.tiles + plan.messages);
            out.copy_from_slice(&[plan.nest.tiles, plan.messages, plan.words, steps].map(|word| word as u32));
            Ok(())
        })
    }

    fn message(&self, encoded: &[u8], route: Route, message: u32, out: &mut [u32; MESSAGE_WORDS]) -> u32 {
        *out = [0; MESSAGE_WORDS];
        planned(encoded, route, |plan| {
            let nest = &plan.nest;
            let mut filled = plan.table.iter().enumerate().filter(|(_, &words)| words != 0);
            let (slot, &words) = filled.nth(message as usize).ok_or(11u32)?;
            let sender = split(slot / nest.directions, &nest.across, nest.n);
            let mut taker = sender;
            (0..nest.m).for_each(|j| taker[j] += plan.step(slot % nest.directions, j));
            let processor =
                |tile: &[usize; 4]| (0..nest.m).fold(0, |number, j| number * nest.counts[j] + tile[j] % nest.counts[j]);
            let line =
                [plan.number(&sender), plan.number(&taker), processor(&sender), processor(&taker), usize::from(words)];
            out.copy_from_slice(&line.map(|word| word as u32));
            Ok(())
        })
    }

    fn hops(&self, encoded: &[u8], message: u32, out: &mut [u32; HOPS_WORDS]) -> u32 {
        *out = [0; HOPS_WORDS];
        planned(encoded, Route::Direct, |plan| {
            let mut filled = (0..plan.table.len()).filter(|&slot| plan.table[slot] != 0);
            let slot = filled.nth(message as usize).ok_or(11u32)?;
            out[0] = ((slot % plan.nest.directions + 1) & plan.nest.wired).count_ones();
            Ok(())
        })
    }

    fn soundings(&self, encoded: &[u8], file: &[u8], value: u32, source: &mut [u32]) -> u32 {
        let filled = refused(file.len() % 16 != 0, 1).and_then(|()| {
            let nest = read(encoded)?;
            refused(source.len() != nest.cells, 9)?;
            soundings(file, value, source)
        });
        filled.err().unwrap_or(0)
    }
}

//! Recipes to try: built from numbers, random ones that are accepted, and damaged ones.

use crate::rng::Rng;

/// a bound of one dimension by an earlier one (W-209): lower where the side is 0, upper where it is 1
#[derive(Clone, Copy, Debug, PartialEq, Eq)]
pub struct Bound {
    pub side: u8,
    pub dimension: u8,
    pub earlier: u8,
    pub slope: i8,
    pub offset: i16,
}

/// the numbers of a recipe, before they become bytes
#[derive(Clone, Debug, PartialEq, Eq)]
pub struct Numbers {
    /// length, tile length, processors
    pub dimensions: Vec<[u16; 3]>,
    pub bounds: Vec<Bound>,
    /// components, weight
    pub distances: Vec<([u16; 4], u16)>,
    pub shift: u8,
    pub boundary: u32,
}

impl Numbers {
    /// the numbers of an accepted recipe, record by record
    pub fn of(bytes: &[u8]) -> Numbers {
        let mut numbers = Numbers::new(&[], &[]);
        for record in bytes.chunks_exact(16) {
            let half = |at: usize| u16::from_le_bytes([record[at], record[at + 1]]);
            match record[0] {
                1 => numbers.dimensions.push([half(2), half(4), half(6)]),
                2 => numbers.distances.push(([2, 3, 4, 5].map(|at: usize| u16::from(record[at])), half(6))),
                4 => numbers.distances.push(([2, 4, 6, 8].map(half), half(10))),
                5 => numbers.bounds.push(Bound {
                    side: record[1],
                    dimension: record[2],
                    earlier: record[3],
                    slope: record[4] as i8,
                    offset: half(6) as i16,
                }),
                _ => {
                    numbers.shift = record[1];
                    numbers.boundary = u32::from(half(4)) | u32::from(half(6)) << 16;
                }
            }
        }
        numbers
    }

    pub fn new(dimensions: &[[u16; 3]], distances: &[&[u16]]) -> Numbers {
        let four = |components: &&[u16]| {
            let mut all = [0; 4];
            all[..components.len()].copy_from_slice(components);
            (all, 1)
        };
        Numbers {
            dimensions: dimensions.to_vec(),
            bounds: vec![],
            distances: distances.iter().map(four).collect(),
            shift: 0,
            boundary: 0,
        }
    }

    /// the same with bounds: side, dimension, earlier dimension, slope, offset
    pub fn within(self, bounds: &[(u8, u8, u8, i8, i16)]) -> Numbers {
        let bound = |&(side, dimension, earlier, slope, offset): &_| Bound { side, dimension, earlier, slope, offset };
        Numbers { bounds: bounds.iter().map(bound).collect(), ..self }
    }

    pub fn bytes(&self) -> Vec<u8> {
        let mut bytes = vec![];
        for dimension in &self.dimensions {
            bytes.extend([1, 0]);
            dimension.iter().for_each(|number| bytes.extend(number.to_le_bytes()));
            bytes.extend([0; 8]);
        }
        for Bound { side, dimension, earlier, slope, offset } in &self.bounds {
            bytes.extend([5, *side, *dimension, *earlier, *slope as u8, 0]);
            bytes.extend(offset.to_le_bytes());
            bytes.extend([0; 8]);
        }
        for (components, weight) in &self.distances {
            // kind 4 only where a component needs two bytes
            let wide = components.iter().any(|&component| component > 255);
            bytes.extend(if wide { wide_record(components, *weight) } else { record(components, *weight) });
        }
        bytes.extend([3, self.shift, 0, 0]);
        bytes.extend(self.boundary.to_le_bytes());
        bytes.extend([0; 8]);
        bytes
    }
}

fn record(components: &[u16; 4], weight: u16) -> [u8; 16] {
    let ([low, high], d) = (weight.to_le_bytes(), components.map(|component| component as u8));
    [2, 0, d[0], d[1], d[2], d[3], low, high, 0, 0, 0, 0, 0, 0, 0, 0]
}

fn wide_record(components: &[u16; 4], weight: u16) -> [u8; 16] {
    let mut record = [0; 16];
    record[0] = 4;
    for (j, number) in components.iter().chain([&weight]).enumerate() {
        record[2 + 2 * j..4 + 2 * j].copy_from_slice(&number.to_le_bytes());
    }
    record
}

/// how large random recipes may get
#[derive(Clone, Copy, Debug)]
pub struct Limits {
    pub cells: usize,
    /// cells × processors
    pub words: usize,
}

/// a random recipe that is accepted, unless it happens to have more than 1,024 tiles
pub fn random(rng: &mut Rng, limits: Limits) -> Numbers {
    // mostly two or three spread dimensions, so that mail goes round corners
    let n = rng.of(&[2, 3, 3, 4, 4]);
    random_of(rng, limits, n, &random_tile)
}

/// one of two dimensions
pub fn flat(rng: &mut Rng, limits: Limits, shaped: bool) -> Numbers {
    let mut numbers = random_of(rng, limits, 2, &random_tile);
    if shaped {
        bound(rng, &mut numbers);
    }
    numbers
}

/// a recipe with bounds, and often with tiles so small that whole ones are cut off
pub fn shape(rng: &mut Rng, limits: Limits) -> Numbers {
    let small = limits.cells <= 1024 && !rng.one_in(3);
    let n = rng.of(&[2, 2, 3]);
    let mut numbers = if small { random_of(rng, limits, n, &|rng, _| rng.between(1, 2)) } else { random(rng, limits) };
    if rng.one_in(3) {
        // a staircase: the further on in a spread dimension, the more of the first tiles is cut off
        let (first, last) = (numbers.dimensions[0][0], numbers.dimensions.len() as u8 - 1);
        let offset = -(rng.below(usize::from(first).min(3)) as i16);
        numbers.bounds.push(Bound { side: 0, dimension: last, earlier: 0, slope: 1, offset });
    } else {
        bound(rng, &mut numbers);
    }
    numbers
}

fn random_of(rng: &mut Rng, limits: Limits, n: usize, tile: &dyn Fn(&mut Rng, usize) -> usize) -> Numbers {
    let spread = if rng.one_in(4) { rng.between(1, n - 1) } else { n - 1 };
    let cells = if rng.one_in(3) { limits.cells } else { rng.between(1, limits.cells) };
    let mut lengths = random_lengths(rng, n, cells);
    // a channel, long enough for distances of more than a byte
    if limits.cells > 300 && rng.one_in(10) {
        lengths.fill(1);
        lengths[rng.below(n)] = rng.between(257, limits.cells.min(1024));
    }
    let tiles: Vec<usize> = lengths.iter().map(|&length| tile(rng, length)).collect();
    let distances = random_distances(rng, &tiles);
    let mut dimensions: Vec<[u16; 3]> = (0..n).map(|j| [lengths[j] as u16, tiles[j] as u16, 0]).collect();
    let mut room = (limits.words / lengths.iter().product::<usize>()).clamp(1, 64);
    for (j, dimension) in dimensions[..spread].iter_mut().enumerate() {
        // every spread dimension still to come needs a factor of 2
        let most = (room >> (spread - 1 - j)).max(2);
        let few = most.min(4);
        let count = match rng.below(8) {
            0 | 1 => 1,
            2 | 3 => rng.between(2, most),
            _ => rng.between(2, few),
        };
        dimension[2] = count as u16;
        room /= count;
    }
    Numbers { dimensions, bounds: vec![], distances, shift: random_shift(rng), boundary: rng.any_word() }
}

/// bounds, one to four, which leave a cell: slopes up, down and none, often of both sides, near that cell or far from it
fn bound(rng: &mut Rng, numbers: &mut Numbers) {
    let n = numbers.dimensions.len();
    let kept: Vec<i32> = numbers.dimensions.iter().map(|d| rng.below(usize::from(d[0])) as i32).collect();
    // bounds that cut nothing, that leave little, or a bit of each
    let usual = rng.of(&[0, 1, 2, 3]);
    let count = rng.of(&[1, 1, 2, 2, 3, 4]);
    let mut last = None;
    while numbers.bounds.len() < count {
        let dimension = if rng.one_in(2) { n - 1 } else { rng.between(1, n - 1) };
        let (mut dimension, mut earlier) = (dimension as u8, rng.below(dimension) as u8);
        let (mut side, mut slope) = (rng.below(2) as u8, rng.of(&[-1, 0, 1, 1]));
        // often the other side of a band
        if let Some(Bound { side: s, dimension: d, earlier: e, slope: a, .. }) = last.filter(|_| rng.one_in(2)) {
            (side, dimension, earlier, slope) = (1 - s, d, e, a);
        }
        let length = usize::from(numbers.dimensions[usize::from(dimension)][0]);
        let room = match if rng.one_in(4) { rng.below(4) } else { usual } {
            0 => 0,
            1 => rng.below(length.min(3)),
            2 => rng.below(length),
            _ => rng.of(&[length, 1024, 2047, 30000]),
        } as i32;
        let line = kept[usize::from(dimension)] - i32::from(slope) * kept[usize::from(earlier)];
        let offset = if side == 0 { line - room } else { line + room };
        let bound = Bound { side, dimension, earlier, slope, offset: offset.clamp(-32768, 32767) as i16 };
        last = Some(bound);
        numbers.bounds.push(bound);
    }
}

fn random_shift(rng: &mut Rng) -> u8 {
    match rng.below(3) {
        0 => 0,
        1 => 31,
        _ => rng.below(32) as u8,
    }
}

/// lengths with a product of at most `cells`
fn random_lengths(rng: &mut Rng, n: usize, cells: usize) -> Vec<usize> {
    let mut room = cells;
    let mut lengths: Vec<usize> = (0..n)
        .map(|j| {
            let even = (room as f64).powf(1.0 / (n - j) as f64).round() as usize;
            let length = match rng.below(8) {
                0 => rng.between(1, room.min(1024)),
                1 => 1,
                2 => rng.between(1, even.max(1)),
                _ => even,
            };
            let length = length.clamp(1, room.min(1024));
            room /= length;
            length
        })
        .collect();
    // the first dimension is not always the longest
    let turn = rng.below(n);
    lengths.rotate_left(turn);
    lengths
}

/// a tile length: mostly some two to five tiles, often a short one at the edge, else one tile with room to spare, or any
fn random_tile(rng: &mut Rng, length: usize) -> usize {
    match rng.below(10) {
        0 => rng.between(1, 1024),
        1 => rng.between(length, length + 3).min(1024),
        2 | 3 => ((length - 1) / rng.between(1, 3)).max(1),
        4 | 5 if length > 256 => rng.between(256, length),
        _ => length.div_ceil(rng.between(2, 5)),
    }
}

/// distances no longer than the tiles, of every kind: none, short, long, as long as a tile or almost
fn random_distances(rng: &mut Rng, tiles: &[usize]) -> Vec<([u16; 4], u16)> {
    let wanted = if rng.one_in(3) { rng.between(1, 8) } else { rng.between(1, 3) };
    // all round the corner, so that some tile may have nothing of its own to send along a dimension
    let corners = rng.one_in(4);
    let mut distances: Vec<([u16; 4], u16)> = vec![];
    while distances.is_empty() {
        for _ in 0..wanted * 2 {
            let mut components = [0; 4];
            for (component, &tile) in components.iter_mut().zip(tiles) {
                let most = if rng.one_in(4) { tile.min(256) } else { tile };
                *component = match if corners { rng.between(2, 3) } else { rng.below(6) } {
                    0 | 1 => 0,
                    2 => most,
                    3 => most - 1,
                    4 => rng.between(0, most),
                    _ => rng.between(0, most.min(2)),
                } as u16;
            }
            if components != [0; 4] && distances.len() < wanted && distances.iter().all(|d| d.0 != components) {
                distances.push((components, rng.of(&[0, 1, 1, 2, 3, 1000, 65535])));
            }
        }
    }
    distances
}

/// a recipe at the limits of the format: most cells, tiles, processors, distances, the longest of each
pub fn extreme(rng: &mut Rng, shaped: bool) -> Numbers {
    let shapes: [&[[u16; 3]]; 12] = [
        &[[128, 16, 8], [128, 16, 0]],
        &[[1024, 1, 64], [16, 16, 0]],
        &[[16, 16, 64], [1024, 1, 0]],
        &[[128, 4, 8], [128, 4, 0]],
        &[[1024, 1024, 2], [16, 1, 0]],
        &[[1024, 256, 3], [16, 3, 0]],
        &[[1, 2, 2], [1024, 1, 0]],
        &[[1, 1024, 64], [1, 1024, 0]],
        &[[25, 3, 8], [25, 3, 8], [26, 8, 0]],
        &[[2, 1, 2], [1024, 2, 32], [8, 8, 0]],
        &[[11, 2, 4], [11, 2, 4], [11, 3, 4], [12, 4, 0]],
        &[[4, 1, 2], [4, 1, 2], [4, 1, 2], [256, 16, 0]],
    ];
    let dimensions = rng.of(&shapes).to_vec();
    let tiles: Vec<usize> = dimensions.iter().map(|d| usize::from(d[1])).collect();
    let distances = random_distances(rng, &tiles);
    let (shift, boundary) = (random_shift(rng), rng.any_word());
    let mut numbers = Numbers { dimensions, bounds: vec![], distances, shift, boundary };
    if shaped {
        bound(rng, &mut numbers);
    }
    numbers
}

/// as many cells, tiles and processors as a recipe may have, in 4 dimensions and with mail in every direction
pub fn slowest() -> Numbers {
    let dimensions = [[8, 2, 4], [8, 2, 4], [16, 2, 4], [16, 2, 0]];
    Numbers::new(&dimensions, &[&[1, 0, 0, 0], &[0, 1, 0, 0], &[0, 0, 1, 0], &[0, 0, 0, 1], &[1, 1, 1, 1]])
}

/// one fault of lines 2 to 8 of the table, or several; of bounds too where there may be shapes
pub fn faulty(rng: &mut Rng, mut numbers: Numbers, shapes: bool) -> Numbers {
    let faults = rng.of(&[1, 1, 1, 2, 2, 3]);
    for _ in 0..faults {
        if shapes && rng.one_in(3) {
            damage_bounds(rng, &mut numbers);
        } else {
            damage_numbers(rng, &mut numbers);
        }
    }
    numbers
}

/// their bytes, sometimes damaged too: a fault of any line of the table
pub fn damaged(rng: &mut Rng, faulty: &Numbers, shapes: bool) -> Vec<u8> {
    let mut bytes = faulty.bytes();
    if rng.one_in(3) {
        damage_bytes(rng, &mut bytes);
    }
    if !shapes {
        // no bound by chance
        bytes.iter_mut().step_by(16).filter(|kind| **kind == 5).for_each(|kind| *kind = 255);
    }
    bytes
}

fn damage_bounds(rng: &mut Rng, numbers: &mut Numbers) {
    let n = numbers.dimensions.len();
    if n < 2 || numbers.dimensions.iter().any(|d| d[0] == 0 || d[0] > 1024) {
        return;
    }
    if numbers.bounds.is_empty() {
        bound(rng, numbers);
    }
    let count = numbers.bounds.len();
    let b = rng.below(count);
    let side = numbers.bounds[b].side;
    let chosen = &mut numbers.bounds[b];
    match rng.below(12) {
        0 => chosen.side = rng.of(&[2, 3, 255]),
        1 => chosen.dimension = rng.of(&[0, n as u8 - 1, n as u8, 4, 255]),
        2 => chosen.earlier = rng.of(&[chosen.dimension, chosen.dimension.wrapping_add(1), 3, 255]),
        3 => chosen.slope = rng.of(&[2, -2, 127, -128, 0]),
        // a count about the limit
        4 | 5 => {
            let (copy, count) = (*chosen, rng.of(&[4, 5]));
            numbers.bounds.resize(count, copy);
        }
        // no cell is left, or few
        6 | 7 => chosen.offset = if side == 0 { rng.of(&[32767, 1024, 5]) } else { rng.of(&[-32768, -1, 0]) },
        8 => chosen.offset = rng.of(&[32767, -32768, -1, 0, 1, 255, 256]),
        // a bound of the other side just beyond this one
        9 if count < 4 => {
            let offset = chosen.offset.saturating_add(if side == 0 { -1 } else { 1 });
            let other = Bound { side: side ^ 1, offset, ..*chosen };
            numbers.bounds.push(other);
        }
        // more tiles in the box than are allowed: about the border of line 8 for the shape
        _ => {
            numbers.dimensions = vec![[32, 1, 2], [rng.of(&[33, 34, 64]), 1, 0]];
            numbers.distances = vec![([1, rng.below(2) as u16, 0, 0], 1)];
            let side = rng.below(2) as u8;
            let offset = match side {
                0 => numbers.dimensions[1][0] as i16 - 32 - rng.below(2) as i16,
                _ => 31 + rng.below(2) as i16,
            };
            numbers.bounds = vec![Bound { side, dimension: 1, earlier: 0, slope: 0, offset }];
        }
    }
}

fn damage_numbers(rng: &mut Rng, numbers: &mut Numbers) {
    let n = numbers.dimensions.len();
    let j = rng.below(n.max(1)).min(n.saturating_sub(1));
    let d = rng.below(numbers.distances.len().max(1));
    if n == 0 || numbers.distances.is_empty() {
        return;
    }
    match rng.below(24) {
        0 => numbers.dimensions[j][0] = rng.of(&[0, 1024, 1025, 65535]),
        1 => numbers.dimensions[j][0] = numbers.dimensions[j][0].wrapping_mul(rng.of(&[2, 16, 129])),
        // about the border of line 4
        2 => {
            let others: usize = numbers
                .dimensions
                .iter()
                .enumerate()
                .filter(|(i, _)| *i != j)
                .map(|(_, x)| usize::from(x[0]))
                .product();
            numbers.dimensions[j][0] = ((16384 / others.max(1)) + rng.below(2)) as u16;
        }
        3 => numbers.distances[d].0 = [0; 4],
        4 => {
            let copy = (numbers.distances[rng.below(numbers.distances.len())].0, rng.word() as u16);
            numbers.distances.push(copy);
        }
        5 => numbers.distances[d].0[rng.below(4)] = rng.of(&[1, 2, 254, 255, 256, 300, 1024, 1025, 65535]),
        6 => numbers.dimensions[j][1] = rng.of(&[0, 1, 1024, 1025, 65535]),
        // a tile as long as a distance, or just shorter
        7 => {
            let component = numbers.distances[d].0[j.min(3)];
            numbers.dimensions[j][1] = component.saturating_sub(rng.below(2) as u16);
        }
        8 => numbers.dimensions[j][2] = rng.of(&[0, 1, 2, 64, 65, 32768, 65535]),
        // where the spread dimensions stand: none at the first, one behind a gap, the last
        9 => numbers.dimensions[rng.of(&[0, j])][2] = 0,
        10 => numbers.dimensions[n - 1][2] = rng.of(&[1, 2]),
        11 => numbers.dimensions.iter_mut().for_each(|x| x[2] = rng.of(&[2, 8, 9, 65535])),
        // small tiles: about the border of line 8
        12 => numbers.dimensions.iter_mut().enumerate().for_each(|(i, x)| {
            x[1] = numbers.distances.iter().map(|y| y.0[i.min(3)]).fold(1, u16::max);
        }),
        13 => {
            numbers.dimensions = vec![[32, 1, 2], [rng.of(&[32, 33]), 1, 0]];
            numbers.distances = vec![([1, 0, 0, 0], 1)];
        }
        14 => numbers.shift = rng.of(&[31, 32, 33, 255]),
        15 => {
            numbers.dimensions.remove(j);
        }
        16 => {
            let copy = numbers.dimensions[j];
            numbers.dimensions.push(copy);
        }
        17 => {
            numbers.distances.remove(d);
        }
        18 => {
            let wanted = rng.between(8, 9);
            // often of both kinds
            let from = rng.of(&[1, 252]);
            for x in from..from + wanted as u16 {
                numbers.dimensions[0][1] = numbers.dimensions[0][1].max(from + 8);
                let new = ([x, x & 1, 0, 0], 1);
                if numbers.distances.len() < wanted && !numbers.distances.contains(&new) {
                    numbers.distances.push(new);
                }
            }
        }
        19 => numbers.distances[d].1 = rng.word() as u16,
        // a component of more than a byte, its tile with it
        20 | 21 => {
            let component = rng.of(&[256, 257, 300, 511, 512, 1024]);
            numbers.distances[d].0[j.min(3)] = component;
            numbers.dimensions[j][1] = component - rng.below(2) as u16;
        }
        22 => numbers.dimensions.iter_mut().for_each(|x| x[0] = rng.of(&[1024, 65535, 128])),
        _ => numbers.dimensions.swap(0, n - 1),
    }
}

fn damage_bytes(rng: &mut Rng, bytes: &mut Vec<u8>) {
    let records = bytes.len() / 16;
    // distances in two bytes a component that need one
    for record in 0..records {
        if bytes[16 * record] == 2 && rng.one_in(3 * records) {
            let components = [2, 3, 4, 5].map(|at| u16::from(bytes[16 * record + at]));
            let weight = u16::from_le_bytes([bytes[16 * record + 6], bytes[16 * record + 7]]);
            bytes[16 * record..16 * record + 16].copy_from_slice(&wide_record(&components, weight));
            return;
        }
    }
    match rng.below(9) {
        0 => bytes.clear(),
        1 => bytes.truncate(rng.below(bytes.len())),
        2 => bytes.extend(vec![0; rng.of(&[1, 15, 16, 16, 32])]),
        // a kind that is another's, or nobody's
        3 => bytes[16 * rng.below(records)] = rng.of(&[0, 1, 2, 3, 4, 5, 255]),
        4 => {
            let at = rng.below(bytes.len());
            bytes[at] ^= 1 << rng.below(8);
        }
        5 => {
            let at = rng.below(bytes.len());
            bytes[at] = rng.word() as u8;
        }
        6 => {
            let (a, b) = (rng.below(records), rng.below(records));
            (0..16).for_each(|at| bytes.swap(16 * a + at, 16 * b + at));
        }
        7 => {
            let record = rng.below(records);
            let copy = bytes[16 * record..16 * record + 16].to_vec();
            let at = 16 * rng.between(0, records);
            bytes.splice(at..at, copy);
        }
        _ => {
            let length = rng.of(&[1, 15, 16, 17, 64, 80, 512, 528]);
            *bytes = (0..length).map(|_| rng.word() as u8 & 3).collect();
        }
    }
}

//! Trials of what the desks do with beds and grids: soundings (W-210) and charts (W-211).

use super::{other_length, words, Outcome, Pair};
use crate::engine::{Engine, CHART_WORDS};
use crate::rng::Rng;

impl Pair<'_> {
    fn soundings(&mut self, file: &[u8], value: u32, source: &mut [u32]) -> Outcome<u32> {
        let mut copy = source.to_vec();
        let theirs = self.engine.soundings(&self.encoded, file, value, &mut copy);
        let ours = self.model.soundings(&self.encoded, file, value, source);
        let records = file.len() / 16;
        self.compare("soundings", &|| format!("of {records} records"), (theirs, ours), (&copy, source))
    }
}

/// a chart's grid, corners and cell size
struct Chart {
    grid: Vec<u32>,
    corners: [i32; 2],
    cell_size: u32,
}

impl Pair<'_> {
    fn chart(&mut self, Chart { grid, corners, cell_size }: &Chart, space: &mut [u8]) -> Outcome<u32> {
        let (mut copy, mut theirs, mut ours) = (space.to_vec(), [7; CHART_WORDS], [8; CHART_WORDS]);
        let numbers = (
            self.engine.chart(&self.encoded, grid, *corners, *cell_size, &mut copy, &mut theirs),
            self.model.chart(&self.encoded, grid, *corners, *cell_size, space, &mut ours),
        );
        let words = |told: [u32; CHART_WORDS], space: &[u8]| -> Vec<u32> {
            told.into_iter().chain(space.iter().map(|&byte| byte.into())).collect()
        };
        let what = || format!("{corners:?} {cell_size} into {} bytes", copy.len());
        self.compare("chart", &what, numbers, (&words(theirs, &copy), &words(ours, space)))
    }

    /// the number and the length told
    fn chart_length(&mut self, Chart { grid, corners, cell_size }: &Chart) -> Outcome<(u32, usize)> {
        let (mut theirs, mut ours) = ([7; CHART_WORDS], [8; CHART_WORDS]);
        let numbers = (
            self.engine.chart_length(&self.encoded, grid, *corners, *cell_size, &mut theirs),
            self.model.chart_length(&self.encoded, grid, *corners, *cell_size, &mut ours),
        );
        let number = self.compare("chart_length", &|| format!("{corners:?} {cell_size}"), numbers, (&theirs, &ours))?;
        Ok((number, ours[0] as usize))
    }
}

/// any grid as text, into a space of its length, a longer or a shorter one
pub fn chart(pair: &mut Pair, rng: &mut Rng, cells: usize) -> Outcome<()> {
    let corner = |rng: &mut Rng| match rng.below(4) {
        0 => rng.of(&[0, 1, -1, 9, 10, -9999]),
        1 => rng.of(&[i32::MIN, i32::MAX]),
        _ => rng.word() as i32,
    };
    for _ in 0..rng.between(1, 2) {
        let length = if rng.one_in(8) { other_length(rng, cells) } else { cells };
        // words of any number of digits
        let grid = (0..length).map(|_| rng.any_word() >> rng.below(32)).collect();
        let cell_size = match rng.below(8) {
            0 => rng.of(&[0, 65536, u32::MAX]),
            1 => rng.of(&[1, 9, 10, 65535]),
            _ => rng.word() & 0xffff,
        };
        let chart = Chart { grid, corners: [corner(rng), corner(rng)], cell_size };
        let (number, length) = pair.chart_length(&chart)?;
        let length = if number == 0 { length } else { 200 };
        let length = match rng.below(4) {
            0 => length - 1,
            1 => length + rng.between(1, 20),
            2 if rng.one_in(4) => 0,
            _ => length,
        };
        let mut space: Vec<u8> = (0..length).map(|_| rng.word() as u8).collect();
        pair.chart(&chart, &mut space)?;
    }
    Ok(())
}

/// a file of records over few cells, so that many meet; days and surveys often equal, or on both sides of 2^31
fn file(rng: &mut Rng, cells: usize) -> Vec<u8> {
    let records = rng.of(&[0, 1, 2, 5, 20, 60]);
    let few = rng.between(1, cells.min(6));
    let near = rng.one_in(2);
    let mut file = vec![];
    for _ in 0..records {
        let cell = if rng.one_in(4) { rng.below(cells) } else { rng.below(few) };
        let mut some = || if near { rng.of(&[0, 1, 2]) } else { rng.of(&[0, 7, 0x7fff_ffff, 0x8000_0000, u32::MAX]) };
        let (day, survey) = (some(), some());
        [cell as u32, day, survey, rng.any_word()].iter().for_each(|word| file.extend(word.to_le_bytes()));
    }
    file
}

/// a file into the source, seldom ragged, with a cell beyond the last or into a source of another length
pub fn soundings(pair: &mut Pair, rng: &mut Rng, cells: usize) -> Outcome<()> {
    for _ in 0..rng.between(1, 3) {
        let mut file = file(rng, cells);
        if rng.one_in(5) && !file.is_empty() {
            let record = rng.below(file.len() / 16);
            let cell = rng.of(&[cells as u32, cells as u32 + 1, u32::MAX, 1 << 31, cells as u32 - 1]);
            file[16 * record..16 * record + 4].copy_from_slice(&cell.to_le_bytes());
        }
        if rng.one_in(6) {
            file.resize(rng.below(file.len() + 20), 1);
        }
        let length = if rng.one_in(6) { other_length(rng, cells) } else { cells };
        let value = rng.any_word();
        pair.soundings(&file, value, &mut words(rng, length))?;
    }
    Ok(())
}

//! Recipes, made by the proved writer.

use std::ops::Deref;

use crate::{read, write, Refusal};

/// Bytes of one record.
const RECORD: usize = 16;

/// Components of one distance.
const COMPONENTS: usize = 4;

/// The fields of a recipe, put together one by one: the dimensions, the bounds, the distances, then
/// [`Fields::close`].
#[derive(Clone, Debug, Default, PartialEq, Eq)]
pub struct Fields {
    lengths: Vec<u16>,
    tiling: Vec<u16>,
    counts: Vec<u16>,
    components: Vec<u16>,
    weights: Vec<u16>,
    sides: Vec<u8>,
    bounded: Vec<u8>,
    earlier: Vec<u8>,
    slopes: Vec<i8>,
    offsets: Vec<i16>,
}

impl Fields {
    /// No dimension, no bound and no distance.
    pub fn new() -> Fields {
        Fields::default()
    }

    /// Adds a dimension: its length, its tile length and its processor count, 0 where it is not spread.
    pub fn dimension(mut self, length: u16, tile: u16, processors: u16) -> Fields {
        self.lengths.push(length);
        self.tiling.push(tile);
        self.counts.push(processors);
        self
    }

    /// Adds a distance with its weight. Components that are not given are 0; more than four are refused by
    /// [`Fields::close`].
    pub fn distance(mut self, components: &[u16], weight: u16) -> Fields {
        self.components.extend(components);
        self.components.extend((components.len()..COMPONENTS).map(|_| 0));
        self.weights.push(weight);
        self
    }

    /// Adds a bound: the component of `dimension` is at least `slope` times that of `earlier`, an earlier dimension, plus
    /// `offset`. Dimensions are counted from 0; a slope is -1, 0 or 1.
    pub fn at_least(self, dimension: u8, earlier: u8, slope: i8, offset: i16) -> Fields {
        self.bound(0, dimension, earlier, slope, offset)
    }

    /// Adds a bound: the component is at most that.
    pub fn at_most(self, dimension: u8, earlier: u8, slope: i8, offset: i16) -> Fields {
        self.bound(1, dimension, earlier, slope, offset)
    }

    fn bound(mut self, side: u8, dimension: u8, earlier: u8, slope: i8, offset: i16) -> Fields {
        self.sides.push(side);
        self.bounded.push(dimension);
        self.earlier.push(earlier);
        self.slopes.push(slope);
        self.offsets.push(offset);
        self
    }

    /// Has the writer make the recipe, with the shift and the boundary value (document 01: shore value).
    ///
    /// Refusals: those of the reader but 1 and 18, as reading such a recipe would be refused.
    pub fn close(&self, shift: u8, boundary: u32) -> Result<Recipe, Refusal> {
        let mut bytes = vec![0; RECORD * (self.lengths.len() + self.sides.len() + self.weights.len() + 1)];
        let Fields { lengths, tiling, counts, components, weights, sides, bounded, earlier, slopes, offsets } = self;
        write(
            lengths, tiling, counts, components, weights, sides, bounded, earlier, slopes, offsets, shift, boundary,
            &mut bytes,
        )?;
        Ok(Recipe { bytes })
    }
}

/// The fields of a recipe in tables of fixed room, as [`read`] tells them. Of each table the first entries count, as many as is
/// said, and the rest are 0.
#[repr(C)]
#[derive(Clone, Copy, Debug, PartialEq, Eq)]
pub struct Tables {
    /// Entries of `lengths`, `tiling` and `counts`.
    pub dimensions: u32,
    /// Entries of `weights`; four times as many of `components`.
    pub distances: u32,
    /// Entries of `sides`, `bounded`, `earlier`, `slopes` and `offsets`.
    pub bounds: u32,
    /// What a cell outside reads as.
    pub boundary: u32,
    /// Cells along each dimension.
    pub lengths: [u16; 4],
    /// Tile lengths.
    pub tiling: [u16; 4],
    /// Processors, 0 where a dimension is not spread.
    pub counts: [u16; 4],
    /// Four a distance.
    pub components: [u16; 32],
    /// One a distance.
    pub weights: [u16; 8],
    /// One a bound.
    pub offsets: [i16; 4],
    /// 0 for lower, 1 for upper.
    pub sides: [u8; 4],
    /// The dimension bounded, counted from 0.
    pub bounded: [u8; 4],
    /// An earlier dimension.
    pub earlier: [u8; 4],
    /// -1, 0 or 1.
    pub slopes: [i8; 4],
    /// The shift.
    pub shift: u8,
}

/// The bytes of a recipe that the engine accepts: [`Fields::close`] and [`Recipe::read`] make no other.
#[derive(Clone, Debug, PartialEq, Eq)]
pub struct Recipe {
    bytes: Vec<u8>,
}

impl Recipe {
    /// A recipe of these bytes.
    ///
    /// Refusals: 1 to 8, 16 to 18 and 20.
    pub fn read(encoded: &[u8]) -> Result<Recipe, Refusal> {
        read(encoded).map(|_| Recipe { bytes: encoded.to_vec() })
    }

    /// Its fields, the shift and the boundary value, of which [`Fields::close`] makes the same recipe.
    ///
    /// ```
    /// # fn main() -> Result<(), rolwyddac::Refusal> {
    /// let recipe = rolwyddac::Fields::new().dimension(4, 2, 2).dimension(1, 1, 0).distance(&[1, 0], 1).close(3, 7)?;
    /// let (fields, shift, boundary) = recipe.fields();
    /// assert_eq!(fields.close(shift, boundary)?, recipe);
    /// # Ok(())
    /// # }
    /// ```
    pub fn fields(&self) -> (Fields, u8, u32) {
        let tables = read(&self.bytes).expect("a recipe is accepted");
        let [dimensions, distances, bounds] =
            [tables.dimensions, tables.distances, tables.bounds].map(|count| count as usize);
        let fields = Fields {
            lengths: tables.lengths[..dimensions].to_vec(),
            tiling: tables.tiling[..dimensions].to_vec(),
            counts: tables.counts[..dimensions].to_vec(),
            components: tables.components[..COMPONENTS * distances].to_vec(),
            weights: tables.weights[..distances].to_vec(),
            sides: tables.sides[..bounds].to_vec(),
            bounded: tables.bounded[..bounds].to_vec(),
            earlier: tables.earlier[..bounds].to_vec(),
            slopes: tables.slopes[..bounds].to_vec(),
            offsets: tables.offsets[..bounds].to_vec(),
        };
        (fields, tables.shift, tables.boundary)
    }
}

impl Deref for Recipe {
    type Target = [u8];

    fn deref(&self) -> &[u8] {
        &self.bytes
    }
}

#[cfg(test)]
mod tests {
    use super::*;

    #[test]
    fn records_are_laid_out() {
        let recipe = Fields::new()
            .dimension(0x0102, 0x0304, 0x0020)
            .dimension(0x0003, 0x0004, 0)
            .distance(&[7, 2], 0x090a)
            .close(11, 0x0c0d_0e0f)
            .unwrap();
        assert_eq!(recipe[..16], [1, 0, 2, 1, 4, 3, 0x20, 0, 0, 0, 0, 0, 0, 0, 0, 0]);
        assert_eq!(recipe[16..32], [1, 0, 3, 0, 4, 0, 0, 0, 0, 0, 0, 0, 0, 0, 0, 0]);
        assert_eq!(recipe[32..48], [2, 0, 7, 2, 0, 0, 10, 9, 0, 0, 0, 0, 0, 0, 0, 0]);
        assert_eq!(recipe[48..], [3, 11, 0, 0, 15, 14, 13, 12, 0, 0, 0, 0, 0, 0, 0, 0]);
    }

    #[test]
    fn a_far_reach_is_laid_out() {
        let recipe = Fields::new()
            .dimension(600, 0x0304, 2)
            .dimension(3, 4, 0)
            .distance(&[255, 4], 1)
            .distance(&[0x0201, 3], 0x0605)
            .distance(&[256], 7)
            .close(0, 0)
            .unwrap();
        assert_eq!(recipe[32..48], [2, 0, 255, 4, 0, 0, 1, 0, 0, 0, 0, 0, 0, 0, 0, 0]);
        assert_eq!(recipe[48..64], [4, 0, 1, 2, 3, 0, 0, 0, 0, 0, 5, 6, 0, 0, 0, 0]);
        assert_eq!(recipe[64..80], [4, 0, 0, 1, 0, 0, 0, 0, 0, 0, 7, 0, 0, 0, 0, 0]);
    }

    #[test]
    fn a_bound_is_laid_out() {
        let recipe = Fields::new()
            .dimension(8, 2, 2)
            .dimension(8, 2, 0)
            .at_least(1, 0, -1, -2)
            .at_most(1, 0, 1, 0x0304)
            .distance(&[1], 1)
            .close(0, 0)
            .unwrap();
        assert_eq!(recipe[32..48], [5, 0, 1, 0, 255, 0, 254, 255, 0, 0, 0, 0, 0, 0, 0, 0]);
        assert_eq!(recipe[48..64], [5, 1, 1, 0, 1, 0, 4, 3, 0, 0, 0, 0, 0, 0, 0, 0]);
    }

    #[test]
    fn what_the_reader_refuses_is_refused() {
        let fields = Fields::new().dimension(4, 2, 2).dimension(1, 1, 0).distance(&[1, 0], 1);
        assert!(fields.close(0, 0).is_ok());
        assert_eq!(fields.close(32, 0), Err(Refusal::StrayRecord));
        assert_eq!(fields.clone().distance(&[0, 0, 0, 0, 1], 1).close(0, 0), Err(Refusal::StrayRecord));
        assert_eq!(fields.clone().distance(&[1], 2).close(0, 0), Err(Refusal::Distance));
        assert_eq!(fields.clone().distance(&[256], 1).close(0, 0), Err(Refusal::Tile));
        assert_eq!(fields.clone().distance(&[1, 0, 256], 1).close(0, 0), Err(Refusal::Distance));
        assert_eq!(fields.dimension(0, 1, 0).close(0, 0), Err(Refusal::Length));
    }
}

//! A plain model of the tiled sweep engine: it reads a recipe, lays out its whole plan as lists, and runs the machine
//! on that plan. It is meant to be read and compared with, not to be quick. Its author had document 01, the trait of
//! engine.rs and the list of public fields below, and nothing else of this repository; later the text of
//! the requests W-201, W-203 to W-205 and W-207, then that of those from W-208 on with the names of their calls and the
//! readings that docs/DECISIONS.md settles, and what is said there of a processor that is lent its own part alone.

use std::array::from_fn;
use std::cell::RefCell;
use std::collections::{BTreeMap, BTreeSet};
use std::rc::Rc;

use crate::engine::{
    Areas, Engine, Part, Progress, Request, Rig, Route, CHART_WORDS, HOPS_WORDS, HOURS_WORDS, MESSAGE_WORDS,
    OPENS_WORDS, PART_ROW_WORDS, PART_SIZES_WORDS, ROUNDS_WORDS, SUMMARY_WORDS, VIEW_WORDS,
};

// the numbers of refused calls
const RAGGED: u32 = 1;
const STRAY_RECORD: u32 = 2;
const LENGTH: u32 = 3;
const TOO_LARGE: u32 = 4;
const DISTANCE: u32 = 5;
const TILE: u32 = 6;
const PROCESSORS: u32 = 7;
const TILES: u32 = 8;
const AREA: u32 = 9;
const UNFIT: u32 = 10;
const NO_SUCH: u32 = 11;
const WAITING: u32 = 12;
const FINISHED: u32 = 13;
const NO_MAIL: u32 = 14;
const EARLY: u32 = 15;
const SPREAD_ORDER: u32 = 16;
const LAST_SPREAD: u32 = 17;
const NARROW: u32 = 18;
const ENGAGED: u32 = 19;
const EMPTY: u32 = 20;
const SHAPE_INDIRECT: u32 = 21;
const STRAY_SOUNDING: u32 = 22;
const NO_CHART: u32 = 23;
const CLOSED: u32 = 24;
const FAULTY_HOURS: u32 = 25;

const RECORD_BYTES: usize = 16;
const MAX_DIMENSIONS: usize = 4;
const MAX_DISTANCES: usize = 8;
const MAX_BOUNDS: usize = 4;
const MAX_LENGTH: usize = 1024;
const MAX_CELLS: u64 = 16_384;
const MAX_TILES: u64 = 1024;
const MAX_PROCESSORS: u64 = 64;

// the stages of a processor's current tile
const GATHER: u32 = 0;
const CALCULATE: u32 = 1;
const SEND: u32 = 2;
// and the marks of a message
const UNSENT: u8 = 0;
const IN_FLIGHT: u8 = 1;
const DELIVERED: u8 = 2;
const TAKEN: u8 = 3;

// the office that a processor is engaged to
const OFFICES: u32 = 2;
const NO_OFFICE: u32 = 2;

/// Minutes of a week.
const WEEK: u32 = 10_080;

/// The table of hours and the minute at which a turn is tried (W-212).
#[derive(Clone, Copy)]
struct Hours<'a> {
    table: &'a [u32],
    minute: u32,
}

impl Hours<'_> {
    /// No window is faulty, of whatever processor, nor is the minute.
    fn are_sound(&self) -> bool {
        let sound = |window: &[u32]| match *window {
            [0, 0] => true,
            [open, close] => open < close && close <= WEEK,
            _ => false,
        };
        self.table.chunks(2).all(sound) && self.minute < WEEK
    }

    /// Is a processor open at the minute?
    fn are_open(&self, processor: usize) -> bool {
        let windows = self.table[processor * HOURS_WORDS..][..HOURS_WORDS].chunks(2);
        windows.into_iter().any(|window| (window[0]..window[1]).contains(&self.minute))
    }
}

/// `Err(number)` unless the condition holds.
fn require(condition: bool, number: u32) -> Result<(), u32> {
    condition.then_some(()).ok_or(number)
}

/// Are bytes whole records?
fn is_whole(bytes: &[u8]) -> bool {
    bytes.len().is_multiple_of(RECORD_BYTES)
}

/// A survey's record (W-210): its cell, and what counts for it.
struct Sounding {
    cell: u32,
    day: u32,
    survey: u32,
    depth: u32,
}

fn soundings(file: &[u8]) -> impl Iterator<Item = Sounding> + '_ {
    file.chunks_exact(RECORD_BYTES).map(|record| {
        let word = |j: usize| u32::from_le_bytes(from_fn(|at| record[4 * j + at]));
        Sounding { cell: word(0), day: word(1), survey: word(2), depth: word(3) }
    })
}

/// A point, or the side lengths of a box of points. Dimensions that a recipe lacks have length 1 and component 0.
type Point = [usize; MAX_DIMENSIONS];

/// The place of a point in the index order of a box.
fn number_of(point: Point, sides: Point) -> usize {
    (0..MAX_DIMENSIONS).fold(0, |number, j| number * sides[j] + point[j])
}

/// The inverse of `number_of`.
fn point_of(mut number: usize, sides: Point) -> Point {
    let mut point = [0; MAX_DIMENSIONS];
    for j in (0..MAX_DIMENSIONS).rev() {
        point[j] = number % sides[j];
        number /= sides[j];
    }
    point
}

/// Four factors of 16 bits can't overflow their product.
fn product(sides: Point) -> u64 {
    sides.iter().map(|&side| side as u64).product()
}

struct Distance {
    components: Point,
    weight: u64,
    /// Is it a record of kind 4?
    wide: bool,
}

/// A sloping bound (W-209): the component of a dimension is held against slope × an earlier one + offset.
struct Bound {
    upper: bool,
    dimension: usize,
    earlier: usize,
    slope: i64,
    offset: i64,
}

impl Bound {
    fn admits(&self, point: Point) -> bool {
        let [component, earlier] = [self.dimension, self.earlier].map(|j| point[j] as i64);
        let line = self.slope * earlier + self.offset;
        if self.upper {
            component <= line
        } else {
            component >= line
        }
    }
}

#[derive(Default)]
struct Recipe {
    /// How many dimensions the recipe has.
    dimensions: usize,
    lengths: Point,
    tile_lengths: Point,
    /// Processor counts, 0 in dimensions that aren't spread.
    counts: Point,
    bounds: Vec<Bound>,
    distances: Vec<Distance>,
    shift: u32,
    boundary: u32,
}

impl Recipe {
    /// An accepted recipe, or the number of the first line that refuses it.
    fn read(encoded: &[u8]) -> Result<Recipe, u32> {
        require(!encoded.is_empty() && is_whole(encoded), RAGGED)?;
        let recipe = Recipe::from_records(encoded).ok_or(STRAY_RECORD)?;
        recipe.check()?;
        Ok(recipe)
    }

    /// All records, if their form, order and number are right; the values in them are still to be checked.
    fn from_records(encoded: &[u8]) -> Option<Recipe> {
        let pair = |low, high| u16::from_le_bytes([low, high]);
        let mut recipe = Recipe::default();
        (recipe.lengths, recipe.tile_lengths) = ([1; MAX_DIMENSIONS], [1; MAX_DIMENSIONS]);
        let mut closed = false;
        for record in encoded.chunks_exact(RECORD_BYTES) {
            let (at, distances) = (recipe.dimensions, recipe.distances.len());
            match *record {
                _ if closed => return None,
                [1, 0, n0, n1, k0, k1, p0, p1, 0, 0, 0, 0, 0, 0, 0, 0]
                    if at < MAX_DIMENSIONS && recipe.bounds.is_empty() && distances == 0 =>
                {
                    recipe.lengths[at] = pair(n0, n1).into();
                    recipe.tile_lengths[at] = pair(k0, k1).into();
                    recipe.counts[at] = pair(p0, p1).into();
                    recipe.dimensions += 1;
                }
                [5, side @ 0..=1, dimension, earlier, slope @ (0 | 1 | 255), 0, o0, o1, 0, 0, 0, 0, 0, 0, 0, 0]
                    if recipe.bounds.len() < MAX_BOUNDS && distances == 0 =>
                {
                    let [dimension, earlier] = [dimension, earlier].map(usize::from);
                    if dimension >= at || earlier >= dimension {
                        return None;
                    }
                    let (slope, offset) = (i64::from(slope as i8), i64::from(i16::from_le_bytes([o0, o1])));
                    recipe.bounds.push(Bound { upper: side == 1, dimension, earlier, slope, offset });
                }
                [2, 0, d1, d2, d3, d4, w0, w1, 0, 0, 0, 0, 0, 0, 0, 0] if distances < MAX_DISTANCES => {
                    let (components, weight) = ([d1, d2, d3, d4].map(usize::from), pair(w0, w1).into());
                    recipe.distances.push(Distance { components, weight, wide: false });
                }
                [4, 0, a0, a1, b0, b1, c0, c1, d0, d1, w0, w1, 0, 0, 0, 0] if distances < MAX_DISTANCES => {
                    let components = [pair(a0, a1), pair(b0, b1), pair(c0, c1), pair(d0, d1)].map(usize::from);
                    recipe.distances.push(Distance { components, weight: pair(w0, w1).into(), wide: true });
                }
                [3, shift @ 0..=31, 0, 0, b0, b1, b2, b3, 0, 0, 0, 0, 0, 0, 0, 0] => {
                    (recipe.shift, recipe.boundary) = (shift.into(), u32::from_le_bytes([b0, b1, b2, b3]));
                    closed = true;
                }
                _ => return None,
            }
        }
        (closed && recipe.dimensions >= 2 && !recipe.distances.is_empty()).then_some(recipe)
    }

    /// The lines on a recipe's values. Their order matters: tiles can be counted only when no tile length is 0.
    fn check(&self) -> Result<(), u32> {
        let in_range = |sides: Point| sides.iter().all(|side| (1..=MAX_LENGTH).contains(side));
        require(in_range(self.lengths), LENGTH)?;
        require(product(self.lengths) <= MAX_CELLS, TOO_LARGE)?;
        require(self.wide_ones_need_it(), NARROW)?;
        require(self.cells().any(|cell| self.holds(point_of(cell, self.lengths))), EMPTY)?;
        require(self.distances_fit(), DISTANCE)?;
        require(in_range(self.tile_lengths) && self.tiles_span_distances(), TILE)?;
        self.check_counts()?;
        require(self.tiles().len() as u64 <= MAX_TILES, TILES)
    }

    /// The numbers of the box's cells.
    fn cells(&self) -> std::ops::Range<usize> {
        0..product(self.lengths) as usize
    }

    /// Does the shape hold a point? It is the box, but for what the bounds cut off.
    fn holds(&self, point: Point) -> bool {
        (0..MAX_DIMENSIONS).all(|j| point[j] < self.lengths[j]) && self.bounds.iter().all(|bound| bound.admits(point))
    }

    /// The tiles that hold a cell of the shape, by their places in the box of tiles, rising.
    fn tiles(&self) -> Vec<usize> {
        let points = self.cells().map(|cell| point_of(cell, self.lengths)).filter(|&point| self.holds(point));
        let tiles: BTreeSet<usize> = points.map(|point| number_of(self.tile_of(point), self.tile_box())).collect();
        tiles.into_iter().collect()
    }

    /// Do two tiles agree in the spread dimensions?
    fn same_column(&self, one: usize, other: usize) -> bool {
        let (one, other) = (point_of(one, self.tile_box()), point_of(other, self.tile_box()));
        (0..MAX_DIMENSIONS).all(|j| self.counts[j] == 0 || one[j] == other[j])
    }

    /// The lines on processor counts (W-203, W-205): a first group of dimensions is spread, not all, over one or more each.
    fn check_counts(&self) -> Result<(), u32> {
        let named = &self.counts[..self.dimensions];
        let spread = named.iter().take_while(|&&count| count != 0).count();
        let follows = named[spread..].iter().any(|&count| count != 0);
        require(spread > 0 && !follows, SPREAD_ORDER)?;
        require(named[self.dimensions - 1] == 0, LAST_SPREAD)?;
        require(product(self.processor_box()) <= MAX_PROCESSORS, PROCESSORS)
    }

    /// Every distance of kind 4 has a component that a byte can't hold (W-207).
    fn wide_ones_need_it(&self) -> bool {
        let fits = |distance: &Distance| distance.components.iter().all(|&d| u8::try_from(d).is_ok());
        !self.distances.iter().any(|distance| distance.wide && fits(distance))
    }

    /// Every distance is non-zero, keeps to the nest's dimensions and is new.
    fn distances_fit(&self) -> bool {
        let mut earlier = BTreeSet::new();
        self.distances.iter().all(|Distance { components, .. }| {
            let (inside, beyond) = components.split_at(self.dimensions);
            let placed = inside.iter().any(|&d| d != 0) && beyond.iter().all(|&d| d == 0);
            placed && earlier.insert(components)
        })
    }

    /// No distance is longer than a tile, in any dimension (W-201: it may be as long).
    fn tiles_span_distances(&self) -> bool {
        let spanned = |components: Point| (0..MAX_DIMENSIONS).all(|j| components[j] <= self.tile_lengths[j]);
        self.distances.iter().all(|distance| spanned(distance.components))
    }

    /// How many tiles lie along each dimension, a cut-off last one included.
    fn tile_box(&self) -> Point {
        from_fn(|j| self.lengths[j].div_ceil(self.tile_lengths[j]))
    }

    /// How many processors lie along each dimension; where it isn't spread, one does all.
    fn processor_box(&self) -> Point {
        self.counts.map(|count| count.max(1))
    }

    /// The processor of a tile, both by number.
    fn processor_of(&self, tile: usize) -> usize {
        let (tile, processors) = (point_of(tile, self.tile_box()), self.processor_box());
        number_of(from_fn(|j| tile[j] % processors[j]), processors)
    }

    fn tile_of(&self, cell: Point) -> Point {
        from_fn(|j| cell[j] / self.tile_lengths[j])
    }

    /// The cell that lies a distance before `cell`, `None` where the boundary value is read.
    fn read_by(&self, cell: Point, distance: &Distance) -> Option<usize> {
        let inside = (0..MAX_DIMENSIONS).all(|j| distance.components[j] <= cell[j]);
        let point = inside.then(|| from_fn(|j| cell[j] - distance.components[j]));
        point.filter(|&point| self.holds(point)).map(|point| number_of(point, self.lengths))
    }

    /// The tile to be sent `cell` for its reader at a distance: it stands with the reader's tile in the spread
    /// dimensions and with the cell's in the others, and may hold no cell itself. `None` if the reader lies outside
    /// the shape.
    fn taker(&self, cell: Point, distance: &Distance) -> Option<usize> {
        let reader: Point = from_fn(|j| cell[j] + distance.components[j]);
        let inside = self.holds(reader);
        let (own, other) = (self.tile_of(cell), self.tile_of(reader));
        let taker = from_fn(|j| if self.counts[j] != 0 { other[j] } else { own[j] });
        inside.then(|| number_of(taker, self.tile_box()))
    }

    /// Which cells of which tile go to which other tile. No distance is longer than a tile, so a tile's takers are its
    /// neighbours t + v, and their rising order is the lexicographic order of the directions v.
    fn parcels(&self) -> BTreeMap<(usize, usize), BTreeSet<usize>> {
        let mut sets: BTreeMap<(usize, usize), BTreeSet<usize>> = BTreeMap::new();
        for cell in self.cells().filter(|&cell| self.holds(point_of(cell, self.lengths))) {
            let point = point_of(cell, self.lengths);
            let sender = number_of(self.tile_of(point), self.tile_box());
            let takers = self.distances.iter().filter_map(|d| self.taker(point, d));
            for taker in takers.filter(|&taker| taker != sender) {
                sets.entry((sender, taker)).or_default().insert(cell);
            }
        }
        sets
    }

    /// The wires that a parcel takes on the indirect route (W-204), as tile and dimension: one dimension at a time, the
    /// lowest first. Where a dimension has one processor, the parcel is there already (W-205).
    fn wires(&self, sender: usize, taker: usize) -> Vec<(usize, usize)> {
        let tiles = self.tile_box();
        let (mut at, end) = (point_of(sender, tiles), point_of(taker, tiles));
        let mut wires = Vec::new();
        for dimension in 0..MAX_DIMENSIONS {
            if at[dimension] != end[dimension] && self.counts[dimension] > 1 {
                wires.push((number_of(at, tiles), dimension));
            }
            at[dimension] = end[dimension];
        }
        wires
    }

    /// All messages by number. On the direct route each parcel for another processor is one. On the indirect route all that goes over a wire is
    /// one, whoever it is for; a tile's wires are in the order of their dimensions.
    fn messages(&self, route: Route, tiles: &[usize]) -> Vec<Message> {
        let next = |tile, dimension| {
            let mut point = point_of(tile, self.tile_box());
            point[dimension] += 1;
            number_of(point, self.tile_box())
        };
        let parcels = self.parcels();
        match route {
            Route::Direct => {
                let parts = parcels.into_iter().map(|((sender, taker), cells)| (sender, taker, cells));
                let away = |sender, taker| self.processor_of(sender) != self.processor_of(taker);
                self.numbered(tiles, parts.filter(|&(sender, taker, _)| away(sender, taker)))
            }
            Route::Indirect => {
                let mut loads: BTreeMap<(usize, usize), BTreeSet<usize>> = BTreeMap::new();
                for ((sender, taker), cells) in &parcels {
                    for wire in self.wires(*sender, *taker) {
                        loads.entry(wire).or_default().extend(cells);
                    }
                }
                let wired = |((tile, dimension), cells)| (tile, next(tile, dimension), cells);
                self.numbered(tiles, loads.into_iter().map(wired))
            }
        }
    }

    /// Senders, takers and cells as messages, one behind the other in the buffer. The tiles of the parts are places in
    /// the box; those of the messages are numbers of tiles that hold a cell. Where the taker holds none, the next one
    /// of its column takes the message.
    fn numbered(&self, tiles: &[usize], parts: impl Iterator<Item = (usize, usize, BTreeSet<usize>)>) -> Vec<Message> {
        let mut offset = 0;
        let message = |(sender, aim, cells): (usize, usize, BTreeSet<usize>)| {
            let sender = tiles.binary_search(&sender).expect("it holds the cells");
            let takes = |&tile: &usize| tile >= aim && self.same_column(tile, aim);
            let taker = tiles.iter().position(takes).expect("at the latest the tile of a reader");
            let shifted = tiles[taker] != aim;
            let message = Message { sender, taker, cells: cells.into_iter().collect(), offset, shifted };
            offset += message.cells.len();
            message
        };
        parts.map(message).collect()
    }
}

/// A message's ends, the cells whose values it carries (rising), and the words of the buffer that lie before it.
#[derive(Clone, Debug, PartialEq, Eq)]
pub struct Message {
    pub sender: usize,
    pub taker: usize,
    pub cells: Vec<usize>,
    pub offset: usize,
    /// Does the tile in its direction hold no cell, so that a later one takes it?
    pub shifted: bool,
}

/// Everything that follows from an accepted recipe and a route. All lists of numbers are rising.
pub struct Plan {
    pub cells: usize,
    pub processors: usize,
    /// The places of the tiles in the box of tiles; those that hold no cell are left out and have no number.
    pub places: Vec<usize>,
    pub cells_of_tile: Vec<Vec<usize>>,
    pub processor_of_tile: Vec<usize>,
    pub tiles_of_processor: Vec<Vec<usize>>,
    pub messages: Vec<Message>,
    /// Message numbers by sending tile, and by taking tile.
    pub sends: Vec<Vec<usize>>,
    pub dues: Vec<Vec<usize>>,
    /// Words of all messages.
    pub words: usize,
    recipe: Recipe,
}

/// The items 0, 1, 2, .. put into `count` groups, rising in each; `groups` names the group of each item.
fn grouped(count: usize, groups: impl Iterator<Item = usize>) -> Vec<Vec<usize>> {
    let mut lists = vec![Vec::new(); count];
    for (item, group) in groups.enumerate() {
        lists[group].push(item);
    }
    lists
}

impl Plan {
    fn new(recipe: Recipe, route: Route) -> Plan {
        let (cells, processors) = (recipe.cells(), product(recipe.processor_box()) as usize);
        let places = recipe.tiles();
        let mut cells_of_tile = vec![Vec::new(); places.len()];
        for cell in cells.clone() {
            let point = point_of(cell, recipe.lengths);
            if recipe.holds(point) {
                let place = number_of(recipe.tile_of(point), recipe.tile_box());
                cells_of_tile[places.binary_search(&place).expect("it holds this cell")].push(cell);
            }
        }
        let processor_of_tile: Vec<usize> = places.iter().map(|&place| recipe.processor_of(place)).collect();
        let messages = recipe.messages(route, &places);
        Plan {
            cells: cells.len(),
            processors,
            tiles_of_processor: grouped(processors, processor_of_tile.iter().copied()),
            sends: grouped(places.len(), messages.iter().map(|message| message.sender)),
            dues: grouped(places.len(), messages.iter().map(|message| message.taker)),
            places,
            cells_of_tile,
            processor_of_tile,
            words: messages.iter().map(|message| message.cells.len()).sum(),
            messages,
            recipe,
        }
    }

    /// The step bound: a gather and a calculate for each tile, a send and a delivery for each message.
    pub fn steps(&self) -> usize {
        2 * self.cells_of_tile.len() + 2 * self.messages.len()
    }

    /// Is there a message without a cell of its sending tile?
    pub fn passes_on_alone(&self) -> bool {
        let own = |message: &Message| {
            message.cells.iter().any(|cell| self.cells_of_tile[message.sender].binary_search(cell).is_ok())
        };
        self.messages.iter().any(|message| !own(message))
    }

    /// Does the shape hold a cell?
    pub fn holds(&self, cell: usize) -> bool {
        self.recipe.holds(point_of(cell, self.recipe.lengths))
    }

    /// The value of one cell of the shape over the values so far; eight products of 16 by 32 bits leave room in 64 for the source.
    fn value(&self, cell: usize, source: &[u32], values: &[u32]) -> u32 {
        let point = point_of(cell, self.recipe.lengths);
        let mut sum = u64::from(source[cell]);
        for distance in &self.recipe.distances {
            let read = self.recipe.read_by(point, distance);
            sum += distance.weight * u64::from(read.map_or(self.recipe.boundary, |from| values[from]));
        }
        (sum >> self.recipe.shift) as u32
    }

    /// The grid as text (W-211), or the number of the line that refuses it.
    fn chart(&self, grid: &[u32], corners: [i32; 2], cell_size: u32) -> Result<String, u32> {
        require(self.recipe.dimensions == 2 && (1..=65_535).contains(&cell_size), NO_CHART)?;
        require(grid.len() == self.cells, AREA)?;
        let ([rows, columns, ..], [x, y]) = (self.recipe.lengths, corners);
        let mut lines = vec![
            format!("ncols {columns}"),
            format!("nrows {rows}"),
            format!("xllcorner {x}"),
            format!("yllcorner {y}"),
            format!("cellsize {cell_size}"),
            "NODATA_value -9999".to_string(),
        ];
        let word = |cell: usize| if self.holds(cell) { grid[cell].to_string() } else { "-9999".to_string() };
        let row = |row: usize| (row * columns..(row + 1) * columns).map(word).collect::<Vec<String>>().join(" ");
        lines.extend((0..rows).map(row));
        Ok(lines.iter().flat_map(|line| [line, "\n"]).collect())
    }

    fn check_areas(&self, areas: &Areas) -> Result<(), u32> {
        let lengths_fit = areas.source.len() == self.cells
            && areas.memories.len() == self.cells * self.processors
            && areas.buffer.len() == self.words
            && areas.progress.len() == self.processors
            && areas.status.len() == self.messages.len();
        require(lengths_fit, AREA)
    }

    /// The test of all areas, records and marks.
    fn check_state(&self, areas: &Areas) -> Result<(), u32> {
        self.check_areas(areas)?;
        require(self.are_fit(&areas.progress) && areas.status.iter().all(|&mark| mark <= TAKEN), UNFIT)
    }

    fn check_table(&self, table: &[u32]) -> Result<(), u32> {
        require(table.len() == self.processors * HOURS_WORDS, AREA)
    }

    /// The same for an office (W-208), which is lent the words that both share and the other's records too; its own
    /// number is tested between lengths and fitness.
    fn check_office(&self, areas: &Areas, engaged: &[u32], other: &[Progress], office: u32) -> Result<(), u32> {
        self.check_areas(areas)?;
        require(engaged.len() == self.processors && other.len() == self.processors, AREA)?;
        require(office < OFFICES, NO_SUCH)?;
        self.check_state(areas)?;
        let busy = |records: &[Progress], processor: usize| records[processor].stage != GATHER;
        let agrees = |processor| match (busy(&areas.progress, processor), busy(other, processor)) {
            (false, false) => engaged[processor] == NO_OFFICE,
            (true, false) => engaged[processor] == office,
            (false, true) => engaged[processor] == OFFICES - 1 - office,
            (true, true) => false,
        };
        require(self.are_fit(other) && (0..self.processors).all(agrees), UNFIT)
    }

    /// Is there a record for each processor, fit for its tiles?
    fn are_fit(&self, records: &[Progress]) -> bool {
        let mut records = records.iter().zip(&self.tiles_of_processor);
        records.all(|(progress, tiles)| self.is_fit(progress, tiles))
    }

    fn has_tiles_left(&self, records: &[Progress], processor: usize) -> bool {
        (records[processor].finished as usize) < self.tiles_of_processor[processor].len()
    }

    /// Writes zero to all areas but the source.
    fn start(areas: &mut Areas) {
        areas.memories.fill(0);
        areas.buffer.fill(0);
        for progress in &mut areas.progress {
            (progress.finished, progress.stage, progress.sent) = (0, GATHER, 0);
        }
        areas.status.fill(UNSENT);
    }

    /// The processor's next stage, in a fit state.
    fn step(&self, areas: &mut Areas, processor: usize) -> Result<(), u32> {
        let (tiles, progress) = (&self.tiles_of_processor[processor], &areas.progress[processor]);
        let &tile = tiles.get(progress.finished as usize).ok_or(FINISHED)?;
        match progress.stage {
            GATHER => self.gather(areas, processor, tile)?,
            CALCULATE => self.calculate(areas, processor, tile),
            _ => self.send(areas, processor, tile),
        }
        Ok(())
    }

    /// A turn for an office, with hours or without.
    fn tenant_turn(
        &self, areas: &mut Areas, engaged: &mut [u32], other: &[Progress], hours: Option<Hours>, office: u32,
        processor: u32,
    ) -> Result<(), u32> {
        hours.map_or(Ok(()), |hours| self.check_table(hours.table))?;
        self.check_office(areas, engaged, other, office)?;
        require(hours.is_none_or(|hours| hours.are_sound()), FAULTY_HOURS)?;
        let processor = index(processor, self.processors)?;
        require(hours.is_none_or(|hours| hours.are_open(processor)), CLOSED)?;
        let held = engaged[processor] != NO_OFFICE && engaged[processor] != office;
        require(!(held && self.has_tiles_left(&areas.progress, processor)), ENGAGED)?;
        self.step(areas, processor)?;
        // between a tile's gather and its last step its record is beyond stage 0
        let busy = areas.progress[processor].stage != GATHER;
        engaged[processor] = if busy { office } else { NO_OFFICE };
        Ok(())
    }

    /// One round (W-213): every processor that can gather as it begins does its whole tile, then all mail in flight is
    /// delivered. Gives how many tiles were done.
    fn round(&self, areas: &mut Areas) -> usize {
        let can_gather = |areas: &Areas, processor: usize| {
            let tile = self.tiles_of_processor[processor].get(areas.progress[processor].finished as usize);
            tile.is_some_and(|&tile| self.dues[tile].iter().all(|&message| areas.status[message] == DELIVERED))
        };
        let ready: Vec<usize> = (0..self.processors).filter(|&processor| can_gather(areas, processor)).collect();
        for &processor in &ready {
            let before = areas.progress[processor].finished;
            while areas.progress[processor].finished == before {
                self.step(areas, processor).expect("it can gather, and then nothing stops it");
            }
        }
        areas.status.iter_mut().filter(|mark| **mark == IN_FLIGHT).for_each(|mark| *mark = DELIVERED);
        ready.len()
    }

    /// The round of each tile: one behind that of its processor's tile before it and those of the tiles that mail to it.
    fn rounds(&self) -> Vec<u32> {
        let mut rounds: Vec<u32> = Vec::new();
        for tile in 0..self.places.len() {
            let own = &self.tiles_of_processor[self.processor_of_tile[tile]];
            let before = own.iter().copied().take_while(|&earlier| earlier < tile).last();
            let senders = self.dues[tile].iter().map(|&message| self.messages[message].sender);
            let latest = senders.chain(before).map(|earlier| rounds[earlier]).max();
            rounds.push(latest.unwrap_or(0) + 1);
        }
        rounds
    }

    /// The delivery of a message, in a fit state.
    fn hand_over(&self, areas: &mut Areas, message: u32) -> Result<(), u32> {
        let mark = &mut areas.status[index(message, self.messages.len())?];
        require(*mark == IN_FLIGHT, NO_MAIL)?;
        *mark = DELIVERED;
        Ok(())
    }

    /// The grid, in a fit state.
    fn copy_out(&self, areas: &mut Areas, grid: &mut [u32]) -> Result<(), u32> {
        let left = |processor| self.has_tiles_left(&areas.progress, processor);
        require(!(0..self.processors).any(left), EARLY)?;
        grid.fill(self.recipe.boundary);
        for (cells, &processor) in self.cells_of_tile.iter().zip(&self.processor_of_tile) {
            let memory = self.memory(&mut areas.memories, processor);
            cells.iter().for_each(|&cell| grid[cell] = memory[cell]);
        }
        Ok(())
    }

    /// Is a record fit for a processor with these tiles?
    fn is_fit(&self, progress: &Progress, tiles: &[usize]) -> bool {
        let (finished, sent) = (progress.finished as usize, progress.sent as usize);
        match tiles.get(finished) {
            None => finished == tiles.len() && progress.stage == 0 && sent == 0,
            Some(&tile) if progress.stage == SEND => sent < self.sends[tile].len(),
            Some(_) => progress.stage < SEND && sent == 0,
        }
    }

    /// The processor's own part of the memories.
    fn memory<'a>(&self, memories: &'a mut [u32], processor: usize) -> &'a mut [u32] {
        &mut memories[processor * self.cells..][..self.cells]
    }

    /// Unpacks and marks all messages due at the tile, if every one has been delivered.
    fn gather(&self, areas: &mut Areas, processor: usize, tile: usize) -> Result<(), u32> {
        let dues = &self.dues[tile];
        require(dues.iter().all(|&number| areas.status[number] == DELIVERED), WAITING)?;
        let memory = self.memory(&mut areas.memories, processor);
        for &number in dues {
            let message = &self.messages[number];
            for (&cell, &word) in message.cells.iter().zip(&areas.buffer[message.offset..]) {
                memory[cell] = word;
            }
            areas.status[number] = TAKEN;
        }
        areas.progress[processor].stage = CALCULATE;
        Ok(())
    }

    /// Calculates the tile's cells within the processor's memory.
    fn calculate(&self, areas: &mut Areas, processor: usize, tile: usize) {
        let memory = self.memory(&mut areas.memories, processor);
        for &cell in &self.cells_of_tile[tile] {
            memory[cell] = self.value(cell, &areas.source, memory);
        }
        areas.progress[processor].stage = SEND;
        self.leave_if_sent(tile, &mut areas.progress[processor]);
    }

    /// Packs the tile's next message.
    fn send(&self, areas: &mut Areas, processor: usize, tile: usize) {
        let progress = &mut areas.progress[processor];
        let number = self.sends[tile][progress.sent as usize];
        let message = &self.messages[number];
        let memory = self.memory(&mut areas.memories, processor);
        for (&cell, word) in message.cells.iter().zip(&mut areas.buffer[message.offset..]) {
            *word = memory[cell];
        }
        areas.status[number] = IN_FLIGHT;
        progress.sent += 1;
        self.leave_if_sent(tile, progress);
    }

    /// Goes on to the next tile once no message of this one is left to send.
    fn leave_if_sent(&self, tile: usize, progress: &mut Progress) {
        if progress.sent as usize == self.sends[tile].len() {
            progress.finished += 1;
            (progress.stage, progress.sent) = (GATHER, 0);
        }
    }
}

/// What one processor keeps where it is lent its own part alone. All lists are rising.
pub struct Own<'a> {
    plan: &'a Plan,
    processor: usize,
    /// The cells of its tiles, and those with which messages to its tiles come.
    pub cells: Vec<usize>,
    pub kept: Vec<usize>,
    /// The messages that its tiles send or take, and where the words of each begin in its mail; last, where they end.
    pub handled: Vec<usize>,
    pub places: Vec<usize>,
}

impl<'a> Own<'a> {
    pub fn of(plan: &'a Plan, processor: usize) -> Own<'a> {
        let at = |tile: usize| plan.processor_of_tile[tile] == processor;
        let cells: BTreeSet<usize> =
            plan.tiles_of_processor[processor].iter().flat_map(|&tile| plan.cells_of_tile[tile].clone()).collect();
        let (mut kept, mut handled, mut places) = (cells.clone(), Vec::new(), vec![0]);
        for (number, message) in plan.messages.iter().enumerate() {
            if at(message.taker) {
                kept.extend(&message.cells);
            }
            if at(message.sender) || at(message.taker) {
                handled.push(number);
                places.push(places[places.len() - 1] + message.cells.len());
            }
        }
        let [cells, kept] = [cells, kept].map(|cells| cells.into_iter().collect());
        Own { plan, processor, cells, kept, handled, places }
    }

    pub fn sizes(&self) -> [usize; PART_SIZES_WORDS] {
        [self.cells.len(), self.kept.len(), self.places[self.handled.len()], self.handled.len()]
    }

    fn check_part(&self, part: &Part) -> Result<(), u32> {
        let [_, kept, words, messages] = self.sizes();
        let lengths = [part.memory.len(), part.mail.len(), part.progress.len(), part.marks.len()];
        require(lengths == [kept, words, 1, messages], AREA)
    }

    fn check_record(&self, part: &Part) -> Result<(), u32> {
        require(self.plan.is_fit(&part.progress[0], &self.plan.tiles_of_processor[self.processor]), UNFIT)
    }

    fn check_state(&self, part: &Part) -> Result<(), u32> {
        self.check_record(part)?;
        require(part.marks.iter().all(|&mark| mark <= TAKEN), UNFIT)
    }

    /// The rank of a message among those that it handles, and its words' place in the mail.
    fn place(&self, message: usize) -> Option<(usize, std::ops::Range<usize>)> {
        let rank = self.handled.binary_search(&message).ok()?;
        Some((rank, self.places[rank]..self.places[rank + 1]))
    }

    /// One stage on a memory of all cells, into which the kept words are put.
    fn step(&self, part: &mut Part) -> Result<(), u32> {
        let plan = self.plan;
        let record = &mut part.progress[0];
        let &tile = plan.tiles_of_processor[self.processor].get(record.finished as usize).ok_or(FINISHED)?;
        let mut memory = vec![0; plan.cells];
        self.kept.iter().zip(&part.memory).for_each(|(&cell, &word)| memory[cell] = word);
        let place = |number: usize| self.place(number).expect("it handles what its tiles send and take");
        match record.stage {
            GATHER => {
                let dues = &plan.dues[tile];
                require(dues.iter().all(|&number| part.marks[place(number).0] == DELIVERED), WAITING)?;
                for &number in dues {
                    let (rank, words) = place(number);
                    let cells = &plan.messages[number].cells;
                    cells.iter().zip(&part.mail[words]).for_each(|(&cell, &word)| memory[cell] = word);
                    part.marks[rank] = TAKEN;
                }
                record.stage = CALCULATE;
            }
            CALCULATE => {
                let mut source = vec![0; plan.cells];
                self.cells.iter().zip(&part.source).for_each(|(&cell, &word)| source[cell] = word);
                for &cell in &plan.cells_of_tile[tile] {
                    memory[cell] = plan.value(cell, &source, &memory);
                }
                record.stage = SEND;
                plan.leave_if_sent(tile, record);
            }
            _ => {
                let number = plan.sends[tile][record.sent as usize];
                let (rank, words) = place(number);
                let cells = &plan.messages[number].cells;
                part.mail[words].iter_mut().zip(cells).for_each(|(word, &cell)| *word = memory[cell]);
                part.marks[rank] = IN_FLIGHT;
                record.sent += 1;
                plan.leave_if_sent(tile, record);
            }
        }
        self.kept.iter().zip(&mut part.memory).for_each(|(&cell, word)| *word = memory[cell]);
        Ok(())
    }
}

/// A recipe's bytes and its plan.
type Kept = Option<(Vec<u8>, Rc<Plan>)>;

/// The engine's calls over plans; the plan of the last accepted recipe is kept, one for each route.
#[derive(Default)]
pub struct Model {
    last: RefCell<[Kept; 2]>,
}

impl Model {
    /// The recipe's plan by a route, or the number that refuses it.
    pub fn plan(&self, encoded: &[u8], route: Route) -> Result<Rc<Plan>, u32> {
        let kept = &mut self.last.borrow_mut()[usize::from(route == Route::Indirect)];
        if let Some((bytes, plan)) = kept {
            if bytes == encoded {
                return Ok(Rc::clone(plan));
            }
        }
        let recipe = Recipe::read(encoded)?;
        require(route == Route::Direct || recipe.bounds.is_empty(), SHAPE_INDIRECT)?;
        let plan = Rc::new(Plan::new(recipe, route));
        *kept = Some((encoded.to_vec(), Rc::clone(&plan)));
        Ok(plan)
    }
}

/// The processor of a plan that is lent its own part alone: its number is tested before lengths.
fn own(plan: &Plan, processor: u32) -> Result<Own<'_>, u32> {
    Ok(Own::of(plan, index(processor, plan.processors)?))
}

/// A number given to a call as an index below `count`.
fn index(number: u32, count: usize) -> Result<usize, u32> {
    Some(number as usize).filter(|&index| index < count).ok_or(NO_SUCH)
}

/// Makes a call and gives its number.
fn answer(call: impl FnOnce() -> Result<(), u32>) -> u32 {
    call().err().unwrap_or(0)
}

impl Engine for Model {
    fn name(&self) -> String {
        "model".to_string()
    }

    fn has(&self, _request: Request) -> bool {
        true
    }

    fn fresh(&self, encoded: &[u8], route: Route, areas: &mut Areas) -> u32 {
        answer(|| {
            self.plan(encoded, route)?.check_areas(areas)?;
            Plan::start(areas);
            Ok(())
        })
    }

    fn turn(&self, encoded: &[u8], route: Route, areas: &mut Areas, processor: u32) -> u32 {
        answer(|| {
            let plan = self.plan(encoded, route)?;
            plan.check_state(areas)?;
            plan.step(areas, index(processor, plan.processors)?)
        })
    }

    fn deliver(&self, encoded: &[u8], route: Route, areas: &mut Areas, message: u32) -> u32 {
        answer(|| {
            let plan = self.plan(encoded, route)?;
            plan.check_state(areas)?;
            plan.hand_over(areas, message)
        })
    }

    fn collect(&self, encoded: &[u8], route: Route, areas: &mut Areas, grid: &mut [u32]) -> u32 {
        answer(|| {
            let plan = self.plan(encoded, route)?;
            require(grid.len() == plan.cells, AREA)?;
            plan.check_state(areas)?;
            plan.copy_out(areas, grid)
        })
    }

    fn sweep(&self, encoded: &[u8], source: &[u32], grid: &mut [u32]) -> u32 {
        answer(|| {
            let plan = self.plan(encoded, Route::Direct)?;
            require(source.len() == plan.cells && grid.len() == plan.cells, AREA)?;
            for cell in 0..plan.cells {
                grid[cell] = if plan.holds(cell) { plan.value(cell, source, grid) } else { plan.recipe.boundary };
            }
            Ok(())
        })
    }

    fn summary(&self, encoded: &[u8], route: Route, out: &mut [u32; SUMMARY_WORDS]) -> u32 {
        *out = [0; SUMMARY_WORDS];
        answer(|| {
            let plan = self.plan(encoded, route)?;
            let line = [plan.cells_of_tile.len(), plan.messages.len(), plan.words, plan.steps()];
            out.copy_from_slice(&line.map(|number| number as u32));
            Ok(())
        })
    }

    fn message(&self, encoded: &[u8], route: Route, message: u32, out: &mut [u32; MESSAGE_WORDS]) -> u32 {
        *out = [0; MESSAGE_WORDS];
        answer(|| {
            let plan = self.plan(encoded, route)?;
            let message = &plan.messages[index(message, plan.messages.len())?];
            let tiles = [message.sender, message.taker];
            let processors = tiles.map(|tile| plan.processor_of_tile[tile]);
            let line = [tiles[0], tiles[1], processors[0], processors[1], message.cells.len()];
            out.copy_from_slice(&line.map(|number| number as u32));
            Ok(())
        })
    }

    fn hops(&self, encoded: &[u8], message: u32, out: &mut [u32; HOPS_WORDS]) -> u32 {
        *out = [0; HOPS_WORDS];
        answer(|| {
            let plan = self.plan(encoded, Route::Direct)?;
            let message = &plan.messages[index(message, plan.messages.len())?];
            let [sender, taker] = [message.sender, message.taker].map(|tile| plan.places[tile]);
            out[0] = plan.recipe.wires(sender, taker).len() as u32;
            Ok(())
        })
    }

    fn fresh_both(&self, encoded: &[u8], route: Route, rig: &mut Rig) -> u32 {
        answer(|| {
            let plan = self.plan(encoded, route)?;
            rig.offices.iter().try_for_each(|areas| plan.check_areas(areas))?;
            require(rig.engaged.len() == plan.processors, AREA)?;
            rig.offices.iter_mut().for_each(Plan::start);
            rig.engaged.fill(NO_OFFICE);
            Ok(())
        })
    }

    fn tenant_turn(
        &self, encoded: &[u8], route: Route, areas: &mut Areas, engaged: &mut [u32], other: &[Progress], office: u32,
        processor: u32,
    ) -> u32 {
        answer(|| self.plan(encoded, route)?.tenant_turn(areas, engaged, other, None, office, processor))
    }

    fn tenant_deliver(
        &self, encoded: &[u8], route: Route, areas: &mut Areas, engaged: &[u32], other: &[Progress], office: u32,
        message: u32,
    ) -> u32 {
        answer(|| {
            let plan = self.plan(encoded, route)?;
            plan.check_office(areas, engaged, other, office)?;
            plan.hand_over(areas, message)
        })
    }

    fn tenant_collect(
        &self, encoded: &[u8], route: Route, areas: &mut Areas, engaged: &[u32], other: &[Progress], office: u32,
        grid: &mut [u32],
    ) -> u32 {
        answer(|| {
            let plan = self.plan(encoded, route)?;
            require(grid.len() == plan.cells, AREA)?;
            plan.check_office(areas, engaged, other, office)?;
            plan.copy_out(areas, grid)
        })
    }

    fn view_of(
        &self, encoded: &[u8], memories: [&[u32]; 2], office: u32, processor: u32, out: &mut [u32; VIEW_WORDS],
    ) -> u32 {
        *out = [0; VIEW_WORDS];
        answer(|| {
            let plan = self.plan(encoded, Route::Direct)?;
            let sized = memories.iter().all(|memories| memories.len() == plan.cells * plan.processors);
            require(sized, AREA)?;
            require(office < OFFICES, NO_SUCH)?;
            let processor = index(processor, plan.processors)?;
            out.copy_from_slice(&[processor * plan.cells, plan.cells].map(|number| number as u32));
            Ok(())
        })
    }

    fn soundings(&self, encoded: &[u8], file: &[u8], value: u32, source: &mut [u32]) -> u32 {
        answer(|| {
            // a ragged file is in the same line as a ragged recipe
            require(is_whole(file), RAGGED)?;
            let plan = self.plan(encoded, Route::Direct)?;
            require(source.len() == plan.cells, AREA)?;
            require(soundings(file).all(|sounding| (sounding.cell as usize) < plan.cells), STRAY_SOUNDING)?;
            source.fill(value);
            // of each cell's records the greatest comes last
            let mut ranked: Vec<(usize, Sounding)> = soundings(file).enumerate().collect();
            ranked.sort_by_key(|(place, sounding)| (sounding.day, sounding.survey, *place));
            ranked.iter().for_each(|(_, sounding)| source[sounding.cell as usize] = sounding.depth);
            Ok(())
        })
    }

    fn chart(
        &self, encoded: &[u8], grid: &[u32], corners: [i32; 2], cell_size: u32, space: &mut [u8],
        out: &mut [u32; CHART_WORDS],
    ) -> u32 {
        *out = [0; CHART_WORDS];
        answer(|| {
            let text = self.plan(encoded, Route::Direct)?.chart(grid, corners, cell_size)?;
            require(space.len() >= text.len(), AREA)?;
            space[..text.len()].copy_from_slice(text.as_bytes());
            out[0] = text.len() as u32;
            Ok(())
        })
    }

    fn chart_length(
        &self, encoded: &[u8], grid: &[u32], corners: [i32; 2], cell_size: u32, out: &mut [u32; CHART_WORDS],
    ) -> u32 {
        *out = [0; CHART_WORDS];
        answer(|| {
            let text = self.plan(encoded, Route::Direct)?.chart(grid, corners, cell_size)?;
            out[0] = text.len() as u32;
            Ok(())
        })
    }

    fn turn_at(
        &self, encoded: &[u8], route: Route, areas: &mut Areas, hours: &[u32], minute: u32, processor: u32,
    ) -> u32 {
        answer(|| {
            let plan = self.plan(encoded, route)?;
            let hours = Hours { table: hours, minute };
            plan.check_table(hours.table)?;
            plan.check_state(areas)?;
            require(hours.are_sound(), FAULTY_HOURS)?;
            let processor = index(processor, plan.processors)?;
            require(hours.are_open(processor), CLOSED)?;
            plan.step(areas, processor)
        })
    }

    fn tenant_turn_at(
        &self, encoded: &[u8], route: Route, areas: &mut Areas, engaged: &mut [u32], other: &[Progress], hours: &[u32],
        minute: u32, office: u32, processor: u32,
    ) -> u32 {
        let hours = Some(Hours { table: hours, minute });
        answer(|| self.plan(encoded, route)?.tenant_turn(areas, engaged, other, hours, office, processor))
    }

    fn opens(&self, encoded: &[u8], hours: &[u32], minute: u32, processor: u32, out: &mut [u32; OPENS_WORDS]) -> u32 {
        *out = [0; OPENS_WORDS];
        answer(|| {
            let plan = self.plan(encoded, Route::Direct)?;
            let hours = Hours { table: hours, minute };
            plan.check_table(hours.table)?;
            require(hours.are_sound(), FAULTY_HOURS)?;
            let processor = index(processor, plan.processors)?;
            // minute by minute, through one week
            let open_after = |wait: &u32| Hours { minute: (minute + wait) % WEEK, ..hours }.are_open(processor);
            let wait = (0..WEEK).find(open_after);
            out.copy_from_slice(&[u32::from(wait.is_some()), wait.unwrap_or(0)]);
            Ok(())
        })
    }

    fn rounds(&self, encoded: &[u8], areas: &mut Areas, out: &mut [u32; ROUNDS_WORDS]) -> u32 {
        *out = [0; ROUNDS_WORDS];
        answer(|| {
            let plan = self.plan(encoded, Route::Direct)?;
            plan.check_areas(areas)?;
            Plan::start(areas);
            while plan.round(areas) > 0 {
                out[0] += 1;
            }
            Ok(())
        })
    }

    fn rounds_of(&self, encoded: &[u8], rounds: &mut [u32]) -> u32 {
        answer(|| {
            let plan = self.plan(encoded, Route::Direct)?;
            require(rounds.len() == plan.places.len(), AREA)?;
            rounds.copy_from_slice(&plan.rounds());
            Ok(())
        })
    }

    fn part_sizes(&self, encoded: &[u8], route: Route, processor: u32, out: &mut [u32; PART_SIZES_WORDS]) -> u32 {
        *out = [0; PART_SIZES_WORDS];
        answer(|| {
            let plan = self.plan(encoded, route)?;
            let own = own(&plan, processor)?;
            out.copy_from_slice(&own.sizes().map(|number| number as u32));
            Ok(())
        })
    }

    fn part_messages(&self, encoded: &[u8], route: Route, processor: u32, out: &mut [u32]) -> u32 {
        answer(|| {
            let plan = self.plan(encoded, route)?;
            let own = own(&plan, processor)?;
            require(out.len() == PART_ROW_WORDS * own.handled.len(), AREA)?;
            let rows = out.chunks_mut(PART_ROW_WORDS).zip(own.handled.iter().zip(&own.places));
            for (row, (&number, &place)) in rows {
                row[0] = number as u32;
                let mut line = [0; MESSAGE_WORDS];
                let told = self.message(encoded, route, number as u32, &mut line);
                require(told == 0, told)?;
                row[1..=MESSAGE_WORDS].copy_from_slice(&line);
                row[1 + MESSAGE_WORDS] = place as u32;
            }
            Ok(())
        })
    }

    fn part_fresh(&self, encoded: &[u8], route: Route, part: &mut Part, processor: u32) -> u32 {
        answer(|| {
            let plan = self.plan(encoded, route)?;
            own(&plan, processor)?.check_part(part)?;
            part.memory.fill(0);
            part.mail.fill(0);
            part.progress.fill(Progress::default());
            part.marks.fill(UNSENT);
            Ok(())
        })
    }

    fn part_turn(&self, encoded: &[u8], route: Route, part: &mut Part, processor: u32) -> u32 {
        answer(|| {
            let plan = self.plan(encoded, route)?;
            let own = own(&plan, processor)?;
            require(part.source.len() == own.cells.len(), AREA)?;
            own.check_part(part)?;
            own.check_state(part)?;
            own.step(part)
        })
    }

    fn part_post(&self, encoded: &[u8], route: Route, part: &mut Part, processor: u32, message: u32) -> u32 {
        answer(|| {
            let plan = self.plan(encoded, route)?;
            let own = own(&plan, processor)?;
            own.check_part(part)?;
            own.check_state(part)?;
            let number = index(message, plan.messages.len())?;
            // another's message has no mark here: it is as one that is not sent
            let (rank, _) = own.place(number).ok_or(NO_MAIL)?;
            require(part.marks[rank] == IN_FLIGHT, NO_MAIL)?;
            part.marks[rank] = DELIVERED;
            Ok(())
        })
    }

    fn part_arrive(
        &self, encoded: &[u8], route: Route, part: &mut Part, processor: u32, message: u32, words: &[u32],
    ) -> u32 {
        answer(|| {
            let plan = self.plan(encoded, route)?;
            let own = own(&plan, processor)?;
            own.check_part(part)?;
            let found = plan.messages.get(message as usize);
            require(found.is_none_or(|message| message.cells.len() == words.len()), AREA)?;
            own.check_state(part)?;
            let taken = found.filter(|message| plan.processor_of_tile[message.taker] == own.processor);
            let (rank, place) = taken.and_then(|_| own.place(message as usize)).ok_or(NO_SUCH)?;
            require(part.marks[rank] == UNSENT, NO_MAIL)?;
            part.mail[place].copy_from_slice(words);
            part.marks[rank] = DELIVERED;
            Ok(())
        })
    }

    fn part_collect(&self, encoded: &[u8], route: Route, part: &mut Part, processor: u32, grid: &mut [u32]) -> u32 {
        answer(|| {
            let plan = self.plan(encoded, route)?;
            let own = own(&plan, processor)?;
            let lengths = [part.memory.len(), part.progress.len(), grid.len()];
            require(lengths == [own.kept.len(), 1, plan.cells], AREA)?;
            own.check_record(part)?;
            let tiles = &plan.tiles_of_processor[own.processor];
            require(part.progress[0].finished as usize == tiles.len(), EARLY)?;
            (0..plan.cells).filter(|&cell| !plan.holds(cell)).for_each(|cell| grid[cell] = plan.recipe.boundary);
            for (cell, &word) in own.kept.iter().zip(&part.memory) {
                if own.cells.binary_search(cell).is_ok() {
                    grid[*cell] = word;
                }
            }
            Ok(())
        })
    }
}

//! A second model, naive on purpose: every call works everything out again, all but the messages, and those by
//! trying all cells for each.
//! It can carry one fault, so that the comparison itself can be tested: each fault must be found.

use crate::engine::{
    Areas, Engine, Part, Progress, Request, Rig, Route, CHART_WORDS, HOPS_WORDS, HOURS_WORDS, MESSAGE_WORDS,
    OPENS_WORDS, PART_ROW_WORDS, PART_SIZES_WORDS, ROUNDS_WORDS, SUMMARY_WORDS, VIEW_WORDS,
};
use crate::recipe::Numbers;
use std::cell::RefCell;
use std::collections::BTreeSet;
use std::rc::Rc;

/// faults a careful author could make
#[derive(Clone, Copy, Debug, PartialEq, Eq)]
pub enum Fault {
    /// Theorem 3 of the report for the unspread dimensions: cells go by their reader's tile there
    UnspreadShift,
    /// a short tile at the edge is taken for a full one
    EdgeTileFull,
    /// a message holds only what tile t + v itself reads
    OnlyTaker,
    /// a cell is listed once for each distance that reads it
    ListedAgain,
    /// the directions of a tile in falling order
    DirectionsFalling,
    /// the sum is taken modulo 2^32 before it is divided
    ModuloFirst,
    /// 0 is read in the place of the boundary value
    BoundaryZero,
    /// the same distance with another weight counts as another distance
    WeightTellsApart,
    /// a tile must be longer than every distance
    TileLonger,
    /// a message of which tile t + v reads nothing is left out
    UnreadLeftOut,
    /// a message is taken by the first tile of the column that reads some of it
    TakenByReader,
    /// number 17 before number 16
    LastFirst,
    /// number 7 before numbers 16 and 17
    CountsFirst,
    /// a dimension with one processor counts as not spread
    OneIsNone,
    /// any spread dimensions will do, as long as the first is one of them
    GapPasses,
    /// a longer recipe of the right start is accepted
    TailUnread,
    /// only the record of the processor that takes the turn is tested
    OwnRecordOnly,
    /// stage 2 is fit at a tile without messages
    SendNothing,
    /// number 11 before number 10
    NoSuchFirst,
    /// a message that is taken already is as good as delivered
    TakenIsDelivered,
    /// a message that is delivered already can be delivered
    DeliveredAgain,
    /// a send leaves the status of a message that was taken
    SendKeepsTaken,
    /// a refused turn writes
    RefusalWrites,
    /// the buffer keeps its words at a fresh start
    FreshKeepsBuffer,
    /// collecting reads the memory of processor 0 only
    CollectFirst,
    /// collecting does not test that all have finished
    CollectEarly,
    /// a source that is too long is accepted
    LongSource,
    /// the last tile of a processor is never finished
    NeverLast,
    /// a gather also writes to the next processor's memory
    Neighbour,
    /// on the indirect route a tile sends its own cells only
    ForwardedDropped,
    /// there a message needs a cell of its sending tile
    ForwardedAloneDropped,
    /// a tile's messages there from the last dimension to the first
    DimensionsFalling,
    /// a cell is listed there once for each direction by which it goes
    ListedForEachWay,
    /// the sending tile's own cells stand there before those it passes on
    PartsUnmerged,
    /// every hop of a message there starts at its first tile
    HopFromStart,
    /// messages there go along the highest dimension first
    HighestFirst,
    /// the last hop is not counted
    LastHopUncounted,
    /// the two routes are taken for one
    RouteUnread,
    /// a single processor in a spread dimension gives 7
    SingleRefused,
    /// a processor sends messages to itself
    OwnBoardKept,
    /// hops in dimensions with a single processor are counted
    HomeHopsCounted,
    /// and are left out of the way: the sending tile is moved by the other dimensions only
    HomeHopsSkipped,
    /// cells for which no message is sent are looked for in the buffer all the same
    HomeCellsUnpacked,
    /// what a tile sends to one processor is one message
    OneForEachProcessor,
    /// of a component of two bytes only the low one is read
    HighBytesLost,
    /// its two bytes are read the other way round
    WideBytesSwapped,
    /// the weight of a wide distance is read where others have theirs
    WideWeightElsewhere,
    /// number 18 behind number 5
    NarrowBehindDistance,
    /// a wide distance that fits bytes is accepted
    NarrowPasses,
    /// eight distances of each kind are accepted
    KindsCountedApart,
    /// all wide distances must stand behind the others
    WideLast,
    /// number 11 for an office behind number 10
    OfficeBehindUnfit,
    /// number 19 behind number 12
    EngagedBehindWaiting,
    /// number 19 where this office has no tiles left
    EngagedThoughFinished,
    /// a tile's last send leaves the processor engaged
    SendKeepsEngaged,
    /// the other office's records are not tested
    OtherUntested,
    /// only the memories that are looked at must have their length
    LookAtOneLength,
    /// a message is left out where tile t + v holds no cell
    EmptyTakerDropped,
    /// tiles keep the numbers that they have in the box
    TilesNumberedInBox,
    /// a cell is mailed for a reader outside the shape
    OutsideMailed,
    /// number 8 counts the tiles of the box
    BoxTilesCounted,
    /// number 20 behind number 5
    EmptyBehindDistance,
    /// bounds that cut nothing are allowed on the indirect route
    UncutIndirect,
    /// of equal soundings the earliest in the file counts
    EarliestCounts,
    /// survey days are compared as signed numbers
    DaysSigned,
    /// the survey's number is looked at before the day
    SurveyBeforeDay,
    /// a ragged file of soundings is tested behind the recipe
    RaggedFileLate,
    /// a sounding outside the shape is refused
    SoundingOutsideShape,
    /// a cell without a sounding keeps its word
    UnsoundedKept,
    /// the columns of the chart are counted by the first dimension
    ColumnsRowsSwapped,
    /// its last row stands first
    LastRowFirst,
    /// its cells outside the shape show their words
    OutsideShown,
    /// number 23 behind number 9
    ChartBehindArea,
    /// the space behind the text is cleared
    TailCleared,
    /// corners are written without their sign
    CornersUnsigned,
    /// number 24 behind number 13
    ClosedBehindFinished,
    /// number 19 before number 24
    EngagedBeforeClosed,
    /// a processor is still open at its close minute
    CloseIncluded,
    /// only the windows of the processor that takes the turn are tested
    OwnWindowsOnly,
    /// the week ends, and what opens earlier in it never opens again
    WeekEnds,
    /// a window that opens at minute 0 is no window
    OpenAtZeroNone,
    /// mail is delivered within a round, and what comes later in it can gather
    MailWithinRound,
    /// a tile's round does not wait for the tile before it on its processor
    TileBeforeForgotten,
    /// a tile's round counts only the first message due at it
    FirstSenderOnly,
    /// a round in which nothing is done is counted at the end
    EmptyRoundCounted,
    /// messages lie in the buffer in the order in which they are sent
    MailInSendingOrder,
    /// a delivery hands over what is in flight before it too
    EarlierDeliveredToo,
    /// a gather marks all that is delivered to its processor
    GatherTakesAll,
    /// for a processor's own part number 9 before number 11
    OwnLengthsFirst,
    /// it keeps the cells of its tiles alone
    OwnCellsKept,
    /// it handles what it sends alone
    OwnSendsHandled,
    /// the place of a message's words is told as in the buffer of all
    OwnPlaceInBuffer,
    /// collecting its part writes all cells that it keeps
    OwnCollectsKept,
    /// and leaves the cells outside the shape
    OwnOutsideKept,
    /// a message that came before can come again
    OwnArrivesAgain,
    /// one can come to its sender
    OwnArrivesAtSender,
}

pub const FAULTS: [Fault; 96] = [
    Fault::UnspreadShift,
    Fault::EdgeTileFull,
    Fault::OnlyTaker,
    Fault::ListedAgain,
    Fault::DirectionsFalling,
    Fault::ModuloFirst,
    Fault::BoundaryZero,
    Fault::WeightTellsApart,
    Fault::TileLonger,
    Fault::UnreadLeftOut,
    Fault::TakenByReader,
    Fault::LastFirst,
    Fault::CountsFirst,
    Fault::OneIsNone,
    Fault::GapPasses,
    Fault::TailUnread,
    Fault::OwnRecordOnly,
    Fault::SendNothing,
    Fault::NoSuchFirst,
    Fault::TakenIsDelivered,
    Fault::DeliveredAgain,
    Fault::SendKeepsTaken,
    Fault::RefusalWrites,
    Fault::FreshKeepsBuffer,
    Fault::CollectFirst,
    Fault::CollectEarly,
    Fault::LongSource,
    Fault::NeverLast,
    Fault::Neighbour,
    Fault::ForwardedDropped,
    Fault::ForwardedAloneDropped,
    Fault::DimensionsFalling,
    Fault::ListedForEachWay,
    Fault::PartsUnmerged,
    Fault::HopFromStart,
    Fault::HighestFirst,
    Fault::LastHopUncounted,
    Fault::RouteUnread,
    Fault::SingleRefused,
    Fault::OwnBoardKept,
    Fault::HomeHopsCounted,
    Fault::HomeHopsSkipped,
    Fault::HomeCellsUnpacked,
    Fault::OneForEachProcessor,
    Fault::HighBytesLost,
    Fault::WideBytesSwapped,
    Fault::WideWeightElsewhere,
    Fault::NarrowBehindDistance,
    Fault::NarrowPasses,
    Fault::KindsCountedApart,
    Fault::WideLast,
    Fault::OfficeBehindUnfit,
    Fault::EngagedBehindWaiting,
    Fault::EngagedThoughFinished,
    Fault::SendKeepsEngaged,
    Fault::OtherUntested,
    Fault::LookAtOneLength,
    Fault::EmptyTakerDropped,
    Fault::TilesNumberedInBox,
    Fault::OutsideMailed,
    Fault::BoxTilesCounted,
    Fault::EmptyBehindDistance,
    Fault::UncutIndirect,
    Fault::EarliestCounts,
    Fault::DaysSigned,
    Fault::SurveyBeforeDay,
    Fault::RaggedFileLate,
    Fault::SoundingOutsideShape,
    Fault::UnsoundedKept,
    Fault::ColumnsRowsSwapped,
    Fault::LastRowFirst,
    Fault::OutsideShown,
    Fault::ChartBehindArea,
    Fault::TailCleared,
    Fault::CornersUnsigned,
    Fault::ClosedBehindFinished,
    Fault::EngagedBeforeClosed,
    Fault::CloseIncluded,
    Fault::OwnWindowsOnly,
    Fault::WeekEnds,
    Fault::OpenAtZeroNone,
    Fault::MailWithinRound,
    Fault::TileBeforeForgotten,
    Fault::FirstSenderOnly,
    Fault::EmptyRoundCounted,
    Fault::MailInSendingOrder,
    Fault::EarlierDeliveredToo,
    Fault::GatherTakesAll,
    Fault::OwnLengthsFirst,
    Fault::OwnCellsKept,
    Fault::OwnSendsHandled,
    Fault::OwnPlaceInBuffer,
    Fault::OwnCollectsKept,
    Fault::OwnOutsideKept,
    Fault::OwnArrivesAgain,
    Fault::OwnArrivesAtSender,
];

/// sending tile, taking tile, cells
type Messages = Rc<Vec<(u64, u64, Vec<u64>)>>;

/// a recipe and its messages
type Kept = Option<(Vec<u8>, Messages)>;

#[derive(Default)]
pub struct Naive {
    fault: Option<Fault>,
    /// the messages of the last recipe, for each route
    last: RefCell<[Kept; 2]>,
}

/// bytes, seen as records
#[derive(Clone, Copy)]
struct View<'a> {
    bytes: &'a [u8],
    fault: Option<Fault>,
    /// dimensions: how many records of kind 1 stand in front
    n: usize,
    /// how many of kind 5 follow, and how many of kinds 2 and 4 then
    bounds: usize,
    distances: usize,
    /// dimensions that have processors
    spread: usize,
}

type Index = [u64; 4];

/// the number of the first true line
fn first(lines: &[(u32, &dyn Fn() -> bool)]) -> u32 {
    lines.iter().find(|(_, test)| test()).map_or(0, |(number, _)| *number)
}

impl<'a> View<'a> {
    fn new(bytes: &'a [u8], fault: Option<Fault>) -> View<'a> {
        let mut view = View { bytes, fault, n: 0, bounds: 0, distances: 0, spread: 0 };
        view.n = (0..view.records()).take_while(|&r| view.kind(r) == 1).count();
        view.bounds = (view.n..view.records()).take_while(|&r| view.kind(r) == 5).count();
        let first = view.n + view.bounds;
        view.distances = (first..view.records()).take_while(|&r| [2, 4].contains(&view.kind(r))).count();
        view.spread = (0..view.n).filter(|&j| view.count(j) != 0).count();
        view
    }

    fn has(&self, fault: Fault) -> bool {
        self.fault == Some(fault)
    }

    fn byte(&self, record: usize, at: usize) -> u64 {
        u64::from(self.bytes[record * 16 + at])
    }

    fn half(&self, record: usize, at: usize) -> u64 {
        self.byte(record, at) + 256 * self.byte(record, at + 1)
    }

    fn records(&self) -> usize {
        self.bytes.len() / 16
    }

    fn kind(&self, record: usize) -> u64 {
        self.byte(record, 0)
    }

    fn close(&self) -> usize {
        self.n + self.bounds + self.distances
    }

    /// the record of distance d
    fn at(&self, d: usize) -> usize {
        self.n + self.bounds + d
    }

    /// a record of kind 5 that is not as the format has it
    fn bad_bound(&self, record: usize) -> bool {
        let [side, dimension, earlier, slope] = [1, 2, 3, 4].map(|at| self.byte(record, at));
        side > 1 || dimension >= self.n as u64 || earlier >= dimension || ![0, 1, 255].contains(&slope)
    }

    fn stray(&self) -> bool {
        let named = |r: usize| match self.kind(r) {
            1 => vec![0, 2, 3, 4, 5, 6, 7],
            2 => vec![0, 2, 3, 4, 5, 6, 7],
            3 => vec![0, 1, 4, 5, 6, 7],
            4 => vec![0, 2, 3, 4, 5, 6, 7, 8, 9, 10, 11],
            5 => vec![0, 1, 2, 3, 4, 6, 7],
            _ => vec![],
        };
        let tail = !self.has(Fault::TailUnread) && self.close() + 1 != self.records();
        !(2..=4).contains(&self.n)
            || self.bounds > 4
            || (self.n..self.n + self.bounds).any(|r| self.bad_bound(r))
            || self.distances == 0
            || self.too_many_distances()
            || (self.has(Fault::WideLast) && (1..self.distances).any(|d| self.is_wide(d - 1) && !self.is_wide(d)))
            || self.close() >= self.records()
            || tail
            || self.kind(self.close()) != 3
            || self.byte(self.close(), 1) > 31
            || (0..=self.close()).any(|r| (0..16).any(|at| !named(r).contains(&at) && self.byte(r, at) != 0))
    }

    fn length(&self, j: usize) -> u64 {
        self.half(j, 2)
    }

    fn tile(&self, j: usize) -> u64 {
        self.half(j, 4)
    }

    fn count(&self, j: usize) -> u64 {
        self.half(j, 6)
    }

    fn is_wide(&self, d: usize) -> bool {
        self.kind(self.at(d)) == 4
    }

    fn too_many_distances(&self) -> bool {
        let wide = (0..self.distances).filter(|&d| self.is_wide(d)).count();
        if self.has(Fault::KindsCountedApart) {
            wide.max(self.distances - wide) > 8
        } else {
            self.distances > 8
        }
    }

    fn component(&self, d: usize, j: usize) -> u64 {
        let record = self.at(d);
        if !self.is_wide(d) {
            self.byte(record, 2 + j)
        } else if self.has(Fault::HighBytesLost) {
            self.byte(record, 2 + 2 * j)
        } else if self.has(Fault::WideBytesSwapped) {
            256 * self.byte(record, 2 + 2 * j) + self.byte(record, 3 + 2 * j)
        } else {
            self.half(record, 2 + 2 * j)
        }
    }

    fn weight(&self, d: usize) -> u64 {
        let wide = self.is_wide(d) && !self.has(Fault::WideWeightElsewhere);
        self.half(self.at(d), if wide { 10 } else { 6 })
    }

    /// a wide distance all of whose components fit a byte, by its bytes
    fn narrow(&self) -> bool {
        let fits = |d: usize| (0..4).all(|j| self.byte(self.at(d), 3 + 2 * j) == 0);
        !self.has(Fault::NarrowPasses) && (0..self.distances).any(|d| self.is_wide(d) && fits(d))
    }

    fn cells(&self) -> u64 {
        (0..self.n).map(|j| self.length(j)).product()
    }

    fn bad_distance(&self) -> bool {
        let same = |d: usize, e: usize| {
            (0..4).all(|j| self.component(d, j) == self.component(e, j))
                && !(self.has(Fault::WeightTellsApart) && self.weight(d) != self.weight(e))
        };
        (0..self.distances).any(|d| {
            (0..4).all(|j| self.component(d, j) == 0)
                || (0..d).any(|e| same(d, e))
                || (self.n..4).any(|j| self.component(d, j) != 0)
        })
    }

    fn bad_tile(&self) -> bool {
        let more = u64::from(self.has(Fault::TileLonger));
        (0..self.n).any(|j| {
            let k = self.tile(j);
            k == 0 || k > 1024 || (0..self.distances).any(|d| self.component(d, j) + more > k)
        })
    }

    fn is_spread(&self, j: usize) -> bool {
        self.count(j) > u64::from(self.has(Fault::OneIsNone))
    }

    /// dimension one is not spread, or one that is spread follows one that is not
    fn bad_order(&self) -> bool {
        let gap = (1..self.n).any(|j| self.is_spread(j) && !self.is_spread(j - 1));
        !self.is_spread(0) || (gap && !self.has(Fault::GapPasses))
    }

    fn last_spread(&self) -> bool {
        self.is_spread(self.n - 1)
    }

    fn bad_counts(&self) -> bool {
        let counts = (0..self.n).map(|j| self.count(j)).filter(|&count| count != 0);
        (self.has(Fault::SingleRefused) && counts.clone().any(|count| count == 1))
            || counts.fold(1u64, |product, count| (product * count).min(1 << 20)) > 64
    }

    fn across(&self, j: usize) -> u64 {
        self.length(j).div_ceil(self.tile(j))
    }

    /// the tiles that hold a cell, by their numbers in the box of tiles
    fn existing(&self) -> Vec<u64> {
        let cells = (0..self.cells()).map(|number| self.cell(number)).filter(|cell| self.inside(cell));
        let tiles: BTreeSet<u64> = cells.map(|cell| self.tile_number(&self.tile_at(&cell))).collect();
        tiles.into_iter().collect()
    }

    fn tiles(&self) -> u64 {
        self.existing().len() as u64
    }

    /// the number of a tile among those that hold a cell
    fn dense(&self, tile: u64) -> u64 {
        let before = self.existing().iter().filter(|&&other| other < tile).count() as u64;
        if self.has(Fault::TilesNumberedInBox) {
            tile
        } else {
            before
        }
    }

    fn too_many_tiles(&self) -> bool {
        let in_box = (0..self.n).map(|j| self.across(j)).product::<u64>();
        (if self.has(Fault::BoxTilesCounted) { in_box } else { self.tiles() }) > 1024
    }

    /// no cell of the box is in the shape
    fn empty(&self) -> bool {
        (0..self.cells()).all(|number| !self.within(&self.cell(number)))
    }

    /// where the indirect route is wanted for a shape
    fn no_way(&self, route: Route) -> bool {
        let uncut = || (0..self.cells()).all(|number| self.within(&self.cell(number)));
        route == Route::Indirect && self.bounds != 0 && !(self.has(Fault::UncutIndirect) && uncut())
    }

    fn read(&self) -> u32 {
        first(&[
            (1, &|| self.bytes.is_empty() || self.bytes.len() % 16 != 0),
            (2, &|| self.stray()),
            (3, &|| (0..self.n).any(|j| self.length(j) == 0 || self.length(j) > 1024)),
            (4, &|| self.cells() > 16384),
            (5, &|| self.has(Fault::NarrowBehindDistance) && self.bad_distance()),
            (18, &|| self.narrow()),
            (5, &|| self.has(Fault::EmptyBehindDistance) && self.bad_distance()),
            (20, &|| self.empty()),
            (5, &|| self.bad_distance()),
            (6, &|| self.bad_tile()),
            (7, &|| self.has(Fault::CountsFirst) && self.bad_counts()),
            (17, &|| self.has(Fault::LastFirst) && self.last_spread()),
            (16, &|| self.bad_order()),
            (17, &|| self.last_spread()),
            (7, &|| self.bad_counts()),
            (8, &|| self.too_many_tiles()),
        ])
    }

    /// the components of a number in a box of the given sides, and back
    fn split(&self, mut number: u64, side: &dyn Fn(usize) -> u64, n: usize) -> Index {
        let mut index = [0; 4];
        for j in (0..n).rev() {
            index[j] = number % side(j);
            number /= side(j);
        }
        index
    }

    fn join(&self, index: &Index, side: &dyn Fn(usize) -> u64, n: usize) -> u64 {
        (0..n).fold(0, |number, j| number * side(j) + index[j])
    }

    fn cell(&self, number: u64) -> Index {
        self.split(number, &|j| self.length(j), self.n)
    }

    fn tile_number(&self, tile: &Index) -> u64 {
        self.join(tile, &|j| self.across(j), self.n)
    }

    fn tile_index(&self, number: u64) -> Index {
        self.split(number, &|j| self.across(j), self.n)
    }

    fn tile_at(&self, cell: &Index) -> Index {
        let mut tile = [0; 4];
        for j in 0..self.n {
            tile[j] = cell[j] / self.tile(j);
        }
        tile
    }

    fn processors(&self) -> u64 {
        (0..self.spread).map(|j| self.count(j)).product()
    }

    fn processor(&self, tile: u64) -> u64 {
        let mut index = self.tile_index(tile);
        for j in 0..self.spread {
            index[j] %= self.count(j);
        }
        self.join(&index, &|j| self.count(j), self.spread)
    }

    fn tiles_of(&self, processor: u64) -> Vec<u64> {
        self.existing().into_iter().filter(|&tile| self.processor(tile) == processor).collect()
    }

    fn inside(&self, cell: &Index) -> bool {
        let side = |j| if self.has(Fault::EdgeTileFull) { self.across(j) * self.tile(j) } else { self.length(j) };
        (0..self.n).all(|j| cell[j] < side(j)) && self.within(cell)
    }

    /// do the bounds admit a cell
    fn within(&self, cell: &Index) -> bool {
        (self.n..self.n + self.bounds).all(|r| {
            let [component, earlier] = [2, 3].map(|at| i64::from(cell[self.byte(r, at) as usize] as u32));
            let slope = match self.byte(r, 4) {
                255 => -1,
                slope => slope as i64,
            };
            let offset = self.half(r, 6) as i64 - if self.byte(r, 7) >= 128 { 65536 } else { 0 };
            let above = component - (slope * earlier + offset);
            if self.byte(r, 1) == 0 {
                above >= 0
            } else {
                above <= 0
            }
        })
    }

    fn ahead(&self, cell: &Index, d: usize) -> Index {
        let mut reader = *cell;
        for j in 0..self.n {
            reader[j] += self.component(d, j);
        }
        reader
    }

    /// does distance d put a reader of this cell where direction v says
    fn reads(&self, tile: &Index, direction: &Index, cell: &Index, d: usize) -> bool {
        let reader = self.ahead(cell, d);
        let (here, there) = (self.tile_at(cell), self.tile_at(&reader));
        let unspread = self.spread..self.n;
        let outside_too = self.has(Fault::OutsideMailed) && (0..self.n).all(|j| reader[j] < self.length(j));
        (self.inside(&reader) || outside_too)
            && self.inside(cell)
            && (0..self.spread).all(|j| here[j] == tile[j] && there[j] == tile[j] + direction[j])
            && if self.has(Fault::UnspreadShift) {
                unspread.clone().all(|j| there[j] == tile[j])
            } else if self.has(Fault::OnlyTaker) {
                unspread.clone().all(|j| here[j] == tile[j] && there[j] == tile[j])
            } else {
                unspread.clone().all(|j| here[j] == tile[j])
            }
    }

    fn held(&self, tile: &Index, direction: &Index) -> Vec<u64> {
        let mut held = vec![];
        for number in 0..self.cells() {
            let cell = self.cell(number);
            let readers = (0..self.distances).filter(|&d| self.reads(tile, direction, &cell, d)).count();
            let listed = if self.has(Fault::ListedAgain) { readers } else { readers.min(1) };
            held.extend(vec![number; listed]);
        }
        held
    }

    /// the tiles in direction v that read cells of a message, rising
    fn reading_tiles(&self, tile: &Index, direction: &Index, held: &[u64]) -> Vec<u64> {
        let mut tiles = vec![];
        for &number in held {
            let cell = self.cell(number);
            let readers = (0..self.distances).filter(|&d| self.reads(tile, direction, &cell, d));
            tiles.extend(readers.map(|d| self.tile_number(&self.tile_at(&self.ahead(&cell, d)))));
        }
        tiles.sort();
        tiles
    }

    /// the directions in lexicographic order
    fn directions(&self) -> Vec<Index> {
        let m = self.spread;
        let mut directions: Vec<Index> = (1..1 << m).map(|number| self.split(number, &|_| 2, m)).collect();
        if self.has(Fault::DirectionsFalling) {
            directions.reverse();
        }
        directions
    }

    /// where a cell with this reader is sent along dimension q: its own tile, moved by what was crossed before q
    fn stop(&self, q: usize, here: &Index, there: &Index) -> Index {
        let mut stop = *here;
        for j in 0..self.spread {
            let before = if self.has(Fault::HighestFirst) { j > q } else { j < q };
            let skipped = self.has(Fault::HomeHopsSkipped) && self.count(j) == 1;
            if before && !skipped && !self.has(Fault::HopFromStart) {
                stop[j] = there[j];
            }
        }
        stop
    }

    /// the cells that a tile sends along dimension q, each with its own tile: those of all tiles are tried
    fn passed(&self, tile: &Index, q: usize) -> Vec<u64> {
        let mut passed = vec![];
        for number in 0..self.cells() {
            let cell = self.cell(number);
            let here = self.tile_at(&cell);
            let mut ways = vec![];
            for d in 0..self.distances {
                let reader = self.ahead(&cell, d);
                let there = self.tile_at(&reader);
                let way: Vec<u64> = (0..self.spread).map(|j| there[j] - here[j]).collect();
                if self.inside(&reader) && way[q] == 1 && self.stop(q, &here, &there) == *tile && !ways.contains(&way) {
                    ways.push(way);
                }
            }
            let listed = if self.has(Fault::ListedForEachWay) { ways.len() } else { ways.len().min(1) };
            let own = here == *tile;
            passed.extend(vec![number; if own || !self.has(Fault::ForwardedDropped) { listed } else { 0 }]);
        }
        let forwarded = |number: &u64| self.tile_at(&self.cell(*number)) != *tile;
        if self.has(Fault::ForwardedAloneDropped) && passed.iter().all(forwarded) {
            passed.clear();
        }
        if self.has(Fault::PartsUnmerged) {
            passed.sort_by_key(forwarded);
        }
        passed
    }

    /// all messages of the indirect route in order
    fn indirect(&self) -> Messages {
        let mut messages = vec![];
        for tile in self.existing() {
            let index = self.tile_index(tile);
            for place in 0..self.spread {
                let q = if self.has(Fault::DimensionsFalling) { self.spread - 1 - place } else { place };
                let passed = self.passed(&index, q);
                let mut taker = index;
                taker[q] += 1;
                if !passed.is_empty() && !self.is_home(tile, self.tile_number(&taker)) {
                    messages.push((tile, self.tile_number(&taker), passed));
                }
            }
        }
        Rc::new(messages)
    }

    /// are both tiles one processor's, so that no message is sent
    fn is_home(&self, tile: u64, taker: u64) -> bool {
        self.processor(tile) == self.processor(taker) && !self.has(Fault::OwnBoardKept)
    }

    /// the cells that a tile reads and that its own processor calculated in other tiles across a spread dimension
    fn home_cells(&self, tile: u64) -> Vec<u64> {
        let mut cells = vec![];
        for direction in self.directions() {
            let mut sender = self.tile_index(tile);
            if (0..self.spread).all(|j| sender[j] >= direction[j]) {
                (0..self.spread).for_each(|j| sender[j] -= direction[j]);
                if self.is_home(self.tile_number(&sender), tile) {
                    cells.extend(self.held(&sender, &direction));
                }
            }
        }
        cells
    }

    /// all messages of the direct route in order
    fn direct(&self) -> Messages {
        let mut messages = vec![];
        let existing = self.existing();
        for &tile in &existing {
            let index = self.tile_index(tile);
            for direction in self.directions() {
                let held = self.held(&index, &direction);
                if held.is_empty() {
                    continue;
                }
                let mut taker = index;
                for j in 0..self.spread {
                    taker[j] += direction[j];
                }
                // the first tile at or behind t + v that exists and has its spread components
                let column = |other: &&u64| (0..self.spread).all(|j| self.tile_index(**other)[j] == taker[j]);
                let aim = self.tile_number(&taker);
                let found = existing.iter().filter(|&&other| other >= aim).find(column).copied();
                if self.has(Fault::EmptyTakerDropped) && found != Some(aim) {
                    continue;
                }
                // there is none only if cells are mailed that nobody reads
                let Some(mut taker) = found else { continue };
                let readers = || self.reading_tiles(&index, &direction, &held);
                if self.has(Fault::UnreadLeftOut) && !readers().contains(&taker) {
                    continue;
                }
                if self.has(Fault::TakenByReader) {
                    taker = readers()[0];
                }
                if self.is_home(tile, taker) {
                    continue;
                }
                let joined =
                    |m: &&mut (u64, u64, Vec<u64>)| m.0 == tile && self.processor(m.1) == self.processor(taker);
                match messages.iter_mut().find(joined).filter(|_| self.has(Fault::OneForEachProcessor)) {
                    Some(message) => {
                        message.2.extend(held);
                        message.2.sort();
                        message.2.dedup();
                    }
                    None => messages.push((tile, taker, held)),
                }
            }
        }
        Rc::new(messages)
    }

    fn boundary(&self) -> u64 {
        self.half(self.close(), 4) + 65536 * self.half(self.close(), 6)
    }

    fn value(&self, source: &[u32], values: &[u32], number: u64) -> u32 {
        let cell = self.cell(number);
        let close = self.close();
        let boundary = if self.has(Fault::BoundaryZero) { 0 } else { self.boundary() };
        if !self.within(&cell) {
            return self.boundary() as u32;
        }
        let mut sum = u128::from(source[number as usize]);
        for d in 0..self.distances {
            let mut from = Some(cell);
            for j in 0..self.n {
                from = from.and_then(|mut index| {
                    index[j] = index[j].checked_sub(self.component(d, j))?;
                    Some(index)
                });
            }
            let word = match from.filter(|index| self.within(index)) {
                Some(index) => u64::from(values[self.join(&index, &|j| self.length(j), self.n) as usize]),
                None => boundary,
            };
            sum += u128::from(self.weight(d)) * u128::from(word);
        }
        if self.has(Fault::ModuloFirst) {
            sum %= 1 << 32;
        }
        (sum / (1 << self.byte(close, 1)) % (1 << 32)) as u32
    }
}

/// a signed number in decimal, digit by digit
fn decimal(number: i64) -> Vec<u8> {
    let mut digits = vec![];
    let mut rest = number.unsigned_abs();
    while digits.is_empty() || rest != 0 {
        digits.push(b'0' + (rest % 10) as u8);
        rest /= 10;
    }
    if number < 0 {
        digits.push(b'-');
    }
    digits.reverse();
    digits
}

impl View<'_> {
    /// the chart's bytes, one after the other
    fn chart(&self, grid: &[u32], corners: [i32; 2], cell_size: u32) -> Vec<u8> {
        let sign = |corner: i32| {
            if self.has(Fault::CornersUnsigned) {
                i64::from(corner as u32)
            } else {
                i64::from(corner)
            }
        };
        let (mut rows, mut columns) = (self.length(0), self.length(1));
        if self.has(Fault::ColumnsRowsSwapped) {
            (rows, columns) = (columns, rows);
        }
        let heads: [(&[u8], i64); 6] = [
            (b"ncols", columns as i64),
            (b"nrows", rows as i64),
            (b"xllcorner", sign(corners[0])),
            (b"yllcorner", sign(corners[1])),
            (b"cellsize", i64::from(cell_size)),
            (b"NODATA_value", -9999),
        ];
        let mut bytes = vec![];
        for (name, number) in heads {
            bytes.extend(name);
            bytes.push(b' ');
            bytes.extend(decimal(number));
            bytes.push(b'\n');
        }
        for row in 0..self.length(0) {
            let row = if self.has(Fault::LastRowFirst) { self.length(0) - 1 - row } else { row };
            for column in 0..self.length(1) {
                if column != 0 {
                    bytes.push(b' ');
                }
                let shown = self.within(&[row, column, 0, 0]) || self.has(Fault::OutsideShown);
                let word = i64::from(grid[(row * self.length(1) + column) as usize]);
                bytes.extend(decimal(if shown { word } else { -9999 }));
            }
            bytes.push(b'\n');
        }
        bytes
    }

    /// the chart, after the lines up to the length of the grid
    fn charted(&self, grid: &[u32], corners: [i32; 2], cell_size: u32) -> Result<Vec<u8>, u32> {
        let area = || grid.len() as u64 != self.cells();
        let number = match self.read() {
            0 => first(&[
                (9, &|| self.has(Fault::ChartBehindArea) && area()),
                (23, &|| self.n != 2 || cell_size == 0 || cell_size > 65535),
                (9, &area),
            ]),
            number => number,
        };
        if number == 0 {
            Ok(self.chart(grid, corners, cell_size))
        } else {
            Err(number)
        }
    }
}

/// what a call on the five areas needs
struct Made<'a> {
    view: View<'a>,
    messages: Messages,
}

impl Made<'_> {
    fn words(&self) -> usize {
        self.messages.iter().map(|m| m.2.len()).sum()
    }

    fn offset(&self, message: usize) -> usize {
        self.messages[..message].iter().map(|m| m.2.len()).sum()
    }

    fn area(&self, areas: &Areas) -> bool {
        let cells = self.view.cells() as usize;
        let processors = self.view.processors() as usize;
        let source = areas.source.len();
        let source_wrong = if self.view.has(Fault::LongSource) { source < cells } else { source != cells };
        source_wrong
            || areas.memories.len() != cells * processors
            || areas.buffer.len() != self.words()
            || areas.progress.len() != processors
            || areas.status.len() != self.messages.len()
    }

    fn sends(&self, tile: u64) -> Vec<usize> {
        (0..self.messages.len()).filter(|&m| self.messages[m].0 == tile).collect()
    }

    fn dues(&self, tile: u64) -> Vec<usize> {
        (0..self.messages.len()).filter(|&m| self.messages[m].1 == tile).collect()
    }

    fn unfit_record(&self, p: usize, record: Progress) -> bool {
        let Progress { finished, stage, sent } = record;
        let tiles = self.view.tiles_of(p as u64);
        let sends = || self.sends(tiles[finished as usize]).len() as u32;
        finished as usize > tiles.len()
            || (finished as usize == tiles.len() && (stage, sent) != (0, 0))
            || stage > 2
            || (stage < 2 && sent != 0)
            || (stage == 2 && sent >= sends() && !(self.view.has(Fault::SendNothing) && sent == 0))
    }

    /// a shared word above 2, or one that disagrees with the stages; the other office's records are not fit
    fn unfit_offices(&self, areas: &Areas, engaged: &[u32], other: &[Progress], office: u32) -> bool {
        (0..engaged.len()).any(|p| {
            let stages = if office == 0 {
                [areas.progress[p].stage, other[p].stage]
            } else {
                [other[p].stage, areas.progress[p].stage]
            };
            let wrong = |o: usize| (stages[o] != 0) != (engaged[p] as usize == o);
            engaged[p] > 2
                || (!self.view.has(Fault::OtherUntested) && self.unfit_record(p, other[p]))
                || wrong(0)
                || wrong(1)
        })
    }

    fn unfit(&self, areas: &Areas, own: Option<u32>) -> bool {
        let record = |p: usize| self.unfit_record(p, areas.progress[p]);
        let own = own.filter(|&p| self.view.has(Fault::OwnRecordOnly) && (p as usize) < areas.progress.len());
        let records = match own {
            Some(p) => record(p as usize),
            None => (0..areas.progress.len()).any(record),
        };
        records || areas.status.iter().any(|&mark| mark > 3)
    }

    fn left(&self, areas: &Areas, processor: u32) -> bool {
        let tiles = self.view.tiles_of(u64::from(processor)).len() as u32;
        let tiles = if self.view.has(Fault::NeverLast) { tiles + 1 } else { tiles };
        areas.progress[processor as usize].finished < tiles
    }

    /// the lines 9, 11 for an office, 10
    fn office_lines(&self, areas: &Areas, engaged: &[u32], other: &[Progress], office: u32) -> u32 {
        let processors = self.view.processors() as usize;
        let unfit = || self.unfit(areas, None) || self.unfit_offices(areas, engaged, other, office);
        first(&[
            (9, &|| self.area(areas) || engaged.len() != processors || other.len() != processors),
            (10, &|| self.view.has(Fault::OfficeBehindUnfit) && unfit()),
            (11, &|| office > 1),
            (10, &unfit),
        ])
    }

    /// the processor's stage
    fn act(&self, areas: &mut Areas, processor: u32) {
        match areas.progress[processor as usize].stage {
            0 => self.gather(areas, processor),
            1 => self.calculate(areas, processor),
            _ => self.send(areas, processor),
        }
    }

    /// every cell from the memory of its tile's processor
    fn copy(&self, areas: &Areas, grid: &mut [u32]) {
        for (cell, word) in grid.iter_mut().enumerate() {
            let index = self.view.cell(cell as u64);
            if !self.view.within(&index) {
                *word = self.view.boundary() as u32;
                continue;
            }
            let tile = self.view.tile_number(&self.view.tile_at(&index));
            let processor = if self.view.has(Fault::CollectFirst) { 0 } else { self.view.processor(tile) };
            *word = areas.memories[processor as usize * self.view.cells() as usize + cell];
        }
    }

    fn early(&self, areas: &Areas) -> bool {
        !self.view.has(Fault::CollectEarly) && (0..self.view.processors()).any(|p| self.left(areas, p as u32))
    }

    fn tile(&self, areas: &Areas, processor: u32) -> u64 {
        let finished = areas.progress[processor as usize].finished as usize;
        *self.view.tiles_of(u64::from(processor)).get(finished).unwrap_or(&0)
    }

    fn waiting(&self, areas: &Areas, processor: u32) -> bool {
        let taken = self.view.has(Fault::TakenIsDelivered);
        let arrived = |m: usize| areas.status[m] == 2 || (taken && areas.status[m] == 3);
        self.left(areas, processor)
            && areas.progress[processor as usize].stage == 0
            && !self.dues(self.tile(areas, processor)).into_iter().all(arrived)
    }

    fn gather(&self, areas: &mut Areas, processor: u32) {
        let cells = self.view.cells() as usize;
        for message in self.dues(self.tile(areas, processor)) {
            for (place, &cell) in self.messages[message].2.iter().enumerate() {
                let word = areas.buffer[self.offset(message) + place];
                areas.memories[processor as usize * cells + cell as usize] = word;
                let next = (processor as usize + 1) * cells + cell as usize;
                if self.view.has(Fault::Neighbour) && next < areas.memories.len() {
                    areas.memories[next] = word;
                }
            }
            areas.status[message] = 3;
        }
        if self.view.has(Fault::GatherTakesAll) {
            for (m, message) in self.messages.iter().enumerate() {
                if areas.status[m] == 2 && self.view.processor(message.1) == u64::from(processor) {
                    areas.status[m] = 3;
                }
            }
        }
        if self.view.has(Fault::HomeCellsUnpacked) {
            for (place, cell) in self.view.home_cells(self.tile(areas, processor)).into_iter().enumerate() {
                let word = areas.buffer.get(place).copied().unwrap_or(0);
                areas.memories[processor as usize * cells + cell as usize] = word;
            }
        }
        areas.progress[processor as usize].stage = 1;
    }

    fn calculate(&self, areas: &mut Areas, processor: u32) {
        let cells = self.view.cells() as usize;
        let tile = self.tile(areas, processor);
        let mut memory = areas.memories[processor as usize * cells..][..cells].to_vec();
        for cell in 0..self.view.cells() {
            let index = self.view.cell(cell);
            if self.view.tile_number(&self.view.tile_at(&index)) == tile && self.view.within(&index) {
                memory[cell as usize] = self.view.value(&areas.source, &memory, cell);
            }
        }
        areas.memories[processor as usize * cells..][..cells].copy_from_slice(&memory);
        self.sent(areas, processor, tile, 0);
    }

    fn send(&self, areas: &mut Areas, processor: u32) {
        let cells = self.view.cells() as usize;
        let tile = self.tile(areas, processor);
        let sent = areas.progress[processor as usize].sent;
        let Some(&message) = self.sends(tile).get(sent as usize) else { return };
        let mut offset = self.offset(message);
        if self.view.has(Fault::MailInSendingOrder) {
            let under_way = (0..self.messages.len()).filter(|&m| areas.status[m] != 0);
            offset = under_way.map(|m| self.messages[m].2.len()).sum();
            offset = offset.min(areas.buffer.len() - self.messages[message].2.len());
        }
        for (place, &cell) in self.messages[message].2.iter().enumerate() {
            areas.buffer[offset + place] = areas.memories[processor as usize * cells + cell as usize];
        }
        if !(self.view.has(Fault::SendKeepsTaken) && areas.status[message] == 3) {
            areas.status[message] = 1;
        }
        self.sent(areas, processor, tile, sent + 1);
    }

    fn sent(&self, areas: &mut Areas, processor: u32, tile: u64, sent: u32) {
        let record = &mut areas.progress[processor as usize];
        if (sent as usize) < self.sends(tile).len() {
            *record = Progress { stage: 2, sent, ..*record };
        } else {
            *record = Progress { finished: record.finished + 1, stage: 0, sent: 0 };
        }
    }
}

/// one processor's own part, by areas of all processors that have it
impl Made<'_> {
    fn owns(&self, processor: u32, cell: u64) -> bool {
        let index = self.view.cell(cell);
        self.view.within(&index)
            && self.view.processor(self.view.tile_number(&self.view.tile_at(&index))) == u64::from(processor)
    }

    fn is_at(&self, tile: u64, processor: u32) -> bool {
        self.view.processor(tile) == u64::from(processor)
    }

    fn own_cells(&self, processor: u32) -> Vec<usize> {
        (0..self.view.cells()).filter(|&cell| self.owns(processor, cell)).map(|cell| cell as usize).collect()
    }

    fn kept(&self, processor: u32) -> Vec<usize> {
        let brought = |cell: u64| self.messages.iter().any(|m| self.is_at(m.1, processor) && m.2.contains(&cell));
        let brings = |cell: u64| !self.view.has(Fault::OwnCellsKept) && brought(cell);
        let cells = (0..self.view.cells()).filter(|&cell| self.owns(processor, cell) || brings(cell));
        cells.map(|cell| cell as usize).collect()
    }

    fn handled(&self, processor: u32) -> Vec<usize> {
        let takes = |m: usize| !self.view.has(Fault::OwnSendsHandled) && self.is_at(self.messages[m].1, processor);
        (0..self.messages.len()).filter(|&m| self.is_at(self.messages[m].0, processor) || takes(m)).collect()
    }

    /// source, memory, mail, messages
    fn part_sizes(&self, processor: u32) -> [usize; PART_SIZES_WORDS] {
        let handled = self.handled(processor);
        let words = handled.iter().map(|&m| self.messages[m].2.len()).sum();
        [self.own_cells(processor).len(), self.kept(processor).len(), words, handled.len()]
    }

    fn wrong_part(&self, part: &Part, processor: u32) -> bool {
        let [_, kept, words, messages] = self.part_sizes(processor);
        [part.memory.len(), part.mail.len(), part.progress.len(), part.marks.len()] != [kept, words, 1, messages]
    }

    /// the lines 11 and 9 of a processor's own part
    fn own_lines(&self, processor: u32, wrong: &dyn Fn() -> bool) -> u32 {
        first(&[
            (9, &|| self.view.has(Fault::OwnLengthsFirst) && wrong()),
            (11, &|| u64::from(processor) >= self.view.processors()),
            (9, wrong),
        ])
    }

    fn widened(&self, part: &Part, processor: u32) -> Areas {
        let (cells, b) = (self.view.cells() as usize, processor as usize);
        let processors = self.view.processors() as usize;
        let mut areas = Areas {
            source: vec![0; cells],
            memories: vec![0; cells * processors],
            buffer: vec![0; self.words()],
            progress: vec![Progress::default(); processors],
            status: vec![0; self.messages.len()],
        };
        self.own_cells(processor).into_iter().zip(&part.source).for_each(|(cell, &word)| areas.source[cell] = word);
        let kept = self.kept(processor).into_iter().zip(&part.memory);
        kept.for_each(|(cell, &word)| areas.memories[b * cells + cell] = word);
        areas.progress[b] = part.progress[0];
        let mut mail = part.mail.iter();
        for (m, &mark) in self.handled(processor).into_iter().zip(&part.marks) {
            areas.status[m] = mark;
            areas.buffer[self.offset(m)..][..self.messages[m].2.len()].fill_with(|| *mail.next().unwrap());
        }
        areas
    }

    fn narrow(&self, areas: &Areas, part: &mut Part, processor: u32) {
        let (cells, b) = (self.view.cells() as usize, processor as usize);
        part.memory = self.kept(processor).into_iter().map(|cell| areas.memories[b * cells + cell]).collect();
        part.progress[0] = areas.progress[b];
        let handled = self.handled(processor);
        part.marks = handled.iter().map(|&m| areas.status[m]).collect();
        let words = |m: usize| areas.buffer[self.offset(m)..][..self.messages[m].2.len()].to_vec();
        part.mail = handled.into_iter().flat_map(words).collect();
    }
}

/// a lent table of hours and a minute
#[derive(Clone, Copy)]
struct Hours<'a> {
    table: &'a [u32],
    minute: u32,
    fault: Option<Fault>,
}

impl Hours<'_> {
    /// the windows of a processor, those of no use left out
    fn windows(&self, processor: u32) -> Vec<(u32, u32)> {
        let none = |open: u32| open == 0 && self.fault == Some(Fault::OpenAtZeroNone);
        let from = processor as usize * HOURS_WORDS;
        let pairs = (from..from + HOURS_WORDS).step_by(2).map(|at| (self.table[at], self.table[at + 1]));
        pairs.filter(|&(open, close)| (open, close) != (0, 0) && !none(open)).collect()
    }

    fn faulty(&self, processor: u32) -> bool {
        let own = self.fault == Some(Fault::OwnWindowsOnly) && (processor as usize) < self.table.len() / HOURS_WORDS;
        let processors = if own { processor..processor + 1 } else { 0..(self.table.len() / HOURS_WORDS) as u32 };
        let bad = |&(open, close): &(u32, u32)| open > 10079 || close > 10080 || open >= close;
        processors.into_iter().any(|p| self.windows(p).iter().any(bad)) || self.minute > 10079
    }

    fn shut(&self, processor: u32) -> bool {
        self.wait(processor) != Some(0)
    }

    /// the minutes until the first window that is open or opens
    fn wait(&self, processor: u32) -> Option<u32> {
        let until = |(open, close): (u32, u32)| {
            let close = if self.fault == Some(Fault::CloseIncluded) { close + 1 } else { close };
            if open <= self.minute && self.minute < close {
                Some(0)
            } else if self.minute < open {
                Some(open - self.minute)
            } else if self.fault == Some(Fault::WeekEnds) {
                None
            } else {
                Some(10080 - self.minute + open)
            }
        };
        self.windows(processor).into_iter().filter_map(until).min()
    }
}

impl Made<'_> {
    /// the lines of a turn behind 10: on hours and office, where it has them
    fn turn_lines(&self, areas: &Areas, hours: Option<Hours>, held: bool, processor: u32) -> u32 {
        let has = |fault| self.view.has(fault);
        let left = || self.left(areas, processor);
        let engaged = || held && (left() || has(Fault::EngagedThoughFinished));
        let shut = || hours.is_some_and(|hours| hours.shut(processor));
        first(&[
            (25, &|| hours.is_some_and(|hours| hours.faulty(processor))),
            (11, &|| u64::from(processor) >= self.view.processors()),
            (19, &|| has(Fault::EngagedBeforeClosed) && engaged()),
            (13, &|| has(Fault::ClosedBehindFinished) && !left()),
            (24, &shut),
            (12, &|| has(Fault::EngagedBehindWaiting) && self.waiting(areas, processor)),
            (19, &engaged),
            (12, &|| self.waiting(areas, processor)),
            (13, &|| !left()),
        ])
    }

    fn bad_table(&self, hours: Option<Hours>) -> bool {
        hours.is_some_and(|hours| hours.table.len() as u64 != self.view.processors() * HOURS_WORDS as u64)
    }

    /// a turn for an office, with hours or without
    fn tenant_turn(
        &self, areas: &mut Areas, engaged: &mut [u32], other: &[Progress], hours: Option<Hours>, office: u32,
        processor: u32,
    ) -> u32 {
        if self.bad_table(hours) {
            return 9;
        }
        let lines = self.office_lines(areas, engaged, other, office);
        if lines != 0 {
            return lines;
        }
        let p = processor as usize;
        let held = engaged.get(p) == Some(&(1 - office));
        let number = self.turn_lines(areas, hours, held, processor);
        if number == 0 {
            let stage = areas.progress[p].stage;
            self.act(areas, processor);
            if stage == 0 {
                engaged[p] = office;
            } else if areas.progress[p].stage == 0 && !(stage == 2 && self.view.has(Fault::SendKeepsEngaged)) {
                engaged[p] = 2;
            }
        }
        number
    }
}

impl Made<'_> {
    /// the tiles that a tile waits for: those that mail to it, and the one before it on its processor
    fn waits_for(&self, tile: u64) -> Vec<u64> {
        let has = |fault| self.view.has(fault);
        let own = self.view.tiles_of(self.view.processor(tile));
        let before = own.into_iter().rfind(|&earlier| earlier < tile).filter(|_| !has(Fault::TileBeforeForgotten));
        let mut senders: Vec<u64> = self.dues(tile).into_iter().map(|message| self.messages[message].0).collect();
        if has(Fault::FirstSenderOnly) {
            senders.truncate(1);
        }
        senders.into_iter().chain(before).collect()
    }

    /// every tile's round: all are 1, and are raised until none stands before or beside what it waits for
    fn tile_rounds(&self) -> Vec<u32> {
        let tiles = self.view.existing();
        let place = |tile: u64| tiles.iter().position(|&other| other == tile).expect("it exists");
        let waits: Vec<Vec<usize>> =
            tiles.iter().map(|&tile| self.waits_for(tile).into_iter().map(place).collect()).collect();
        let mut rounds = vec![1; tiles.len()];
        let mut settled = false;
        while !settled {
            settled = true;
            for tile in (0..tiles.len()).rev() {
                for &earlier in &waits[tile] {
                    if rounds[tile] <= rounds[earlier] {
                        rounds[tile] = rounds[earlier] + 1;
                        settled = false;
                    }
                }
            }
        }
        rounds
    }

    /// the rounds of a run; each processor that is ready does its tile to the end
    fn drive(&self, areas: &mut Areas) -> u32 {
        let mut rounds = 0;
        let deliver = |areas: &mut Areas| areas.status.iter_mut().filter(|s| **s == 1).for_each(|s| *s = 2);
        loop {
            let processors = 0..self.view.processors() as u32;
            let ready = |areas: &Areas, p: u32| self.left(areas, p) && !self.waiting(areas, p);
            let at_start: Vec<bool> = processors.clone().map(|p| ready(areas, p)).collect();
            if !at_start.contains(&true) {
                return rounds + u32::from(self.view.has(Fault::EmptyRoundCounted));
            }
            rounds += 1;
            for p in processors {
                let within = self.view.has(Fault::MailWithinRound);
                if if within { ready(areas, p) } else { at_start[p as usize] } {
                    self.act(areas, p);
                    while areas.progress[p as usize].stage != 0 {
                        self.act(areas, p);
                    }
                }
                if within {
                    deliver(areas);
                }
            }
            deliver(areas);
        }
    }
}

impl Naive {
    pub fn with(fault: Fault) -> Naive {
        Naive { fault: Some(fault), last: RefCell::default() }
    }

    fn messages(&self, bytes: &[u8], route: Route) -> Messages {
        let route = if self.fault == Some(Fault::RouteUnread) { Route::Direct } else { route };
        let last = &mut self.last.borrow_mut()[usize::from(route == Route::Indirect)];
        match last {
            Some((known, messages)) if known == bytes => messages.clone(),
            _ => {
                let messages = match route {
                    Route::Direct => self.view(bytes).direct(),
                    Route::Indirect => self.view(bytes).indirect(),
                };
                *last = Some((bytes.to_vec(), messages.clone()));
                messages
            }
        }
    }

    fn view<'a>(&self, bytes: &'a [u8]) -> View<'a> {
        View::new(bytes, self.fault)
    }

    /// refused recipes answered, the rest made
    fn made<'a>(&self, bytes: &'a [u8], route: Route) -> Result<Made<'a>, u32> {
        match self.view(bytes).read() {
            0 if self.view(bytes).no_way(route) => Err(21),
            0 => Ok(Made { view: self.view(bytes), messages: self.messages(bytes, route) }),
            number => Err(number),
        }
    }
}

impl Naive {
    /// what a call gives and leaves on areas that have the part
    fn on_areas(
        &self, encoded: &[u8], route: Route, part: &mut Part, processor: u32, wrong: &dyn Fn(&Made) -> bool,
        call: &mut dyn FnMut(&mut Areas) -> u32,
    ) -> u32 {
        let made = match self.made(encoded, route) {
            Ok(made) => made,
            Err(number) => return number,
        };
        let number = made.own_lines(processor, &|| made.wrong_part(part, processor) || wrong(&made));
        if number != 0 {
            return number;
        }
        let mut areas = made.widened(part, processor);
        let number = call(&mut areas);
        made.narrow(&areas, part, processor);
        number
    }
}

impl Engine for Naive {
    fn name(&self) -> String {
        match self.fault {
            None => "naive".into(),
            Some(fault) => format!("naive with the fault {fault:?}"),
        }
    }

    fn has(&self, _request: Request) -> bool {
        true
    }

    fn fresh(&self, encoded: &[u8], route: Route, areas: &mut Areas) -> u32 {
        let made = match self.made(encoded, route) {
            Ok(made) => made,
            Err(number) => return number,
        };
        if made.area(areas) {
            return 9;
        }
        areas.memories.fill(0);
        if self.fault != Some(Fault::FreshKeepsBuffer) {
            areas.buffer.fill(0);
        }
        areas.progress.fill(Progress::default());
        areas.status.fill(0);
        0
    }

    fn turn(&self, encoded: &[u8], route: Route, areas: &mut Areas, processor: u32) -> u32 {
        let made = match self.made(encoded, route) {
            Ok(made) => made,
            Err(number) => return number,
        };
        let none = u64::from(processor) >= made.view.processors();
        let number = first(&[
            (9, &|| made.area(areas)),
            (11, &|| self.fault == Some(Fault::NoSuchFirst) && none),
            (10, &|| made.unfit(areas, Some(processor))),
            (11, &|| none),
            (12, &|| made.waiting(areas, processor)),
            (13, &|| !made.left(areas, processor)),
        ]);
        if number == 0 {
            made.act(areas, processor);
        } else if self.fault == Some(Fault::RefusalWrites) && number == 12 {
            areas.memories[0] = areas.memories[0].wrapping_add(1);
        }
        number
    }

    fn deliver(&self, encoded: &[u8], route: Route, areas: &mut Areas, message: u32) -> u32 {
        let made = match self.made(encoded, route) {
            Ok(made) => made,
            Err(number) => return number,
        };
        let again = self.fault == Some(Fault::DeliveredAgain);
        let number = first(&[
            (9, &|| made.area(areas)),
            (10, &|| made.unfit(areas, None)),
            (11, &|| message as usize >= made.messages.len()),
            (14, &|| areas.status[message as usize] != 1 && !(again && areas.status[message as usize] == 2)),
        ]);
        if number == 0 {
            areas.status[message as usize] = 2;
            if self.fault == Some(Fault::EarlierDeliveredToo) {
                areas.status[..message as usize].iter_mut().filter(|s| **s == 1).for_each(|s| *s = 2);
            }
        }
        number
    }

    fn collect(&self, encoded: &[u8], route: Route, areas: &mut Areas, grid: &mut [u32]) -> u32 {
        let made = match self.made(encoded, route) {
            Ok(made) => made,
            Err(number) => return number,
        };
        let number = first(&[
            (9, &|| made.area(areas) || grid.len() as u64 != made.view.cells()),
            (10, &|| made.unfit(areas, None)),
            (15, &|| made.early(areas)),
        ]);
        if number == 0 {
            made.copy(areas, grid);
        }
        number
    }

    fn sweep(&self, encoded: &[u8], source: &[u32], grid: &mut [u32]) -> u32 {
        let view = self.view(encoded);
        let number = match view.read() {
            0 if source.len() as u64 != view.cells() || grid.len() as u64 != view.cells() => 9,
            number => number,
        };
        if number == 0 {
            for cell in 0..view.cells() {
                grid[cell as usize] = view.value(source, grid, cell);
            }
        }
        number
    }

    fn summary(&self, encoded: &[u8], route: Route, out: &mut [u32; SUMMARY_WORDS]) -> u32 {
        *out = [0; SUMMARY_WORDS];
        let made = match self.made(encoded, route) {
            Ok(made) => made,
            Err(number) => return number,
        };
        out[0] = made.view.tiles() as u32;
        out[1] = made.messages.len() as u32;
        out[2] = made.words() as u32;
        out[3] = 2 * (out[0] + out[1]);
        0
    }

    fn message(&self, encoded: &[u8], route: Route, message: u32, out: &mut [u32; MESSAGE_WORDS]) -> u32 {
        *out = [0; MESSAGE_WORDS];
        let made = match self.made(encoded, route) {
            Ok(made) => made,
            Err(number) => return number,
        };
        let Some((sender, taker, held)) = made.messages.get(message as usize) else { return 11 };
        out[0] = made.view.dense(*sender) as u32;
        out[1] = made.view.dense(*taker) as u32;
        out[2] = made.view.processor(*sender) as u32;
        out[3] = made.view.processor(*taker) as u32;
        out[4] = held.len() as u32;
        0
    }

    fn hops(&self, encoded: &[u8], message: u32, out: &mut [u32; HOPS_WORDS]) -> u32 {
        *out = [0; HOPS_WORDS];
        let made = match self.made(encoded, Route::Direct) {
            Ok(made) => made,
            Err(number) => return number,
        };
        let Some((sender, taker, _)) = made.messages.get(message as usize) else { return 11 };
        let (from, to) = (made.view.tile_index(*sender), made.view.tile_index(*taker));
        let wired = |j: usize| made.view.count(j) > 1 || self.fault == Some(Fault::HomeHopsCounted);
        let ones = (0..made.view.spread).filter(|&j| to[j] == from[j] + 1 && wired(j)).count() as u32;
        out[0] = if self.fault == Some(Fault::LastHopUncounted) { ones - 1 } else { ones };
        0
    }

    fn fresh_both(&self, encoded: &[u8], route: Route, rig: &mut Rig) -> u32 {
        let made = match self.made(encoded, route) {
            Ok(made) => made,
            Err(number) => return number,
        };
        if rig.offices.iter().any(|areas| made.area(areas)) || rig.engaged.len() as u64 != made.view.processors() {
            return 9;
        }
        rig.offices.iter_mut().for_each(|areas| assert_eq!(self.fresh(encoded, route, areas), 0));
        rig.engaged.fill(2);
        0
    }

    fn tenant_turn(
        &self, encoded: &[u8], route: Route, areas: &mut Areas, engaged: &mut [u32], other: &[Progress], office: u32,
        processor: u32,
    ) -> u32 {
        let made = match self.made(encoded, route) {
            Ok(made) => made,
            Err(number) => return number,
        };
        made.tenant_turn(areas, engaged, other, None, office, processor)
    }

    fn tenant_deliver(
        &self, encoded: &[u8], route: Route, areas: &mut Areas, engaged: &[u32], other: &[Progress], office: u32,
        message: u32,
    ) -> u32 {
        let made = match self.made(encoded, route) {
            Ok(made) => made,
            Err(number) => return number,
        };
        match made.office_lines(areas, engaged, other, office) {
            0 => self.deliver(encoded, route, areas, message),
            number => number,
        }
    }

    fn tenant_collect(
        &self, encoded: &[u8], route: Route, areas: &mut Areas, engaged: &[u32], other: &[Progress], office: u32,
        grid: &mut [u32],
    ) -> u32 {
        let made = match self.made(encoded, route) {
            Ok(made) => made,
            Err(number) => return number,
        };
        let number = first(&[
            (9, &|| grid.len() as u64 != made.view.cells()),
            (made.office_lines(areas, engaged, other, office), &|| true),
        ]);
        match number {
            0 => self.collect(encoded, route, areas, grid),
            number => number,
        }
    }

    fn view_of(
        &self, encoded: &[u8], memories: [&[u32]; 2], office: u32, processor: u32, out: &mut [u32; VIEW_WORDS],
    ) -> u32 {
        *out = [0; VIEW_WORDS];
        let view = self.view(encoded);
        match view.read() {
            0 => {}
            number => return number,
        }
        let one = self.fault == Some(Fault::LookAtOneLength) && office < 2;
        let lent = if one { &memories[office as usize..][..1] } else { &memories[..] };
        let number = first(&[
            (9, &|| lent.iter().any(|m| m.len() as u64 != view.cells() * view.processors())),
            (11, &|| office > 1 || u64::from(processor) >= view.processors()),
        ]);
        if number == 0 {
            out[0] = processor * view.cells() as u32;
            out[1] = view.cells() as u32;
        }
        number
    }

    fn soundings(&self, encoded: &[u8], file: &[u8], value: u32, source: &mut [u32]) -> u32 {
        let has = |fault| self.fault == Some(fault);
        let view = self.view(encoded);
        let ragged = file.len() % 16 != 0;
        let field = |record: usize, j: usize| {
            let at = 16 * record + 4 * j;
            (0..4).fold(0, |word, byte| word + (i64::from(file[at + byte]) << (8 * byte)))
        };
        let records = file.len() / 16;
        let stray = |record: usize| {
            let cell = field(record, 0);
            cell >= view.cells() as i64 || (has(Fault::SoundingOutsideShape) && !view.within(&view.cell(cell as u64)))
        };
        let number = first(&[(1, &|| ragged && !has(Fault::RaggedFileLate)), (view.read(), &|| true)]);
        let number = match number {
            0 => first(&[
                (1, &|| ragged),
                (9, &|| source.len() as u64 != view.cells()),
                (22, &|| (0..records).any(stray)),
            ]),
            number => number,
        };
        if number != 0 {
            return number;
        }
        let key = |record: usize| {
            let (mut day, survey) = (field(record, 1), field(record, 2));
            if has(Fault::DaysSigned) && day >= 1 << 31 {
                day -= 1 << 32;
            }
            if has(Fault::SurveyBeforeDay) {
                [survey, day]
            } else {
                [day, survey]
            }
        };
        for (cell, word) in source.iter_mut().enumerate() {
            let mut best: Option<usize> = None;
            for record in (0..records).filter(|&record| field(record, 0) == cell as i64) {
                let better = |old| key(record) > key(old) || (key(record) == key(old) && !has(Fault::EarliestCounts));
                if best.is_none_or(better) {
                    best = Some(record);
                }
            }
            match best {
                Some(record) => *word = field(record, 3) as u32,
                None if has(Fault::UnsoundedKept) => {}
                None => *word = value,
            }
        }
        0
    }

    fn chart(
        &self, encoded: &[u8], grid: &[u32], corners: [i32; 2], cell_size: u32, space: &mut [u8],
        out: &mut [u32; CHART_WORDS],
    ) -> u32 {
        *out = [0; CHART_WORDS];
        match self.view(encoded).charted(grid, corners, cell_size) {
            Err(number) => number,
            Ok(text) if text.len() > space.len() => 9,
            Ok(text) => {
                for (at, byte) in space.iter_mut().enumerate() {
                    match text.get(at) {
                        Some(&letter) => *byte = letter,
                        None if self.fault == Some(Fault::TailCleared) => *byte = 0,
                        None => {}
                    }
                }
                out[0] = text.len() as u32;
                0
            }
        }
    }

    fn chart_length(
        &self, encoded: &[u8], grid: &[u32], corners: [i32; 2], cell_size: u32, out: &mut [u32; CHART_WORDS],
    ) -> u32 {
        *out = [0; CHART_WORDS];
        match self.view(encoded).charted(grid, corners, cell_size) {
            Err(number) => number,
            Ok(text) => {
                out[0] = text.len() as u32;
                0
            }
        }
    }

    fn turn_at(
        &self, encoded: &[u8], route: Route, areas: &mut Areas, hours: &[u32], minute: u32, processor: u32,
    ) -> u32 {
        let made = match self.made(encoded, route) {
            Ok(made) => made,
            Err(number) => return number,
        };
        let hours = Some(Hours { table: hours, minute, fault: self.fault });
        let number = first(&[(9, &|| made.area(areas) || made.bad_table(hours)), (10, &|| made.unfit(areas, None))]);
        let number = if number == 0 { made.turn_lines(areas, hours, false, processor) } else { number };
        if number == 0 {
            made.act(areas, processor);
        }
        number
    }

    fn tenant_turn_at(
        &self, encoded: &[u8], route: Route, areas: &mut Areas, engaged: &mut [u32], other: &[Progress], hours: &[u32],
        minute: u32, office: u32, processor: u32,
    ) -> u32 {
        let made = match self.made(encoded, route) {
            Ok(made) => made,
            Err(number) => return number,
        };
        let hours = Some(Hours { table: hours, minute, fault: self.fault });
        made.tenant_turn(areas, engaged, other, hours, office, processor)
    }

    fn opens(&self, encoded: &[u8], hours: &[u32], minute: u32, processor: u32, out: &mut [u32; OPENS_WORDS]) -> u32 {
        *out = [0; OPENS_WORDS];
        let view = self.view(encoded);
        match view.read() {
            0 => {}
            number => return number,
        }
        let hours = Hours { table: hours, minute, fault: self.fault };
        let number = first(&[
            (9, &|| hours.table.len() as u64 != view.processors() * HOURS_WORDS as u64),
            (25, &|| hours.faulty(processor)),
            (11, &|| u64::from(processor) >= view.processors()),
        ]);
        if number == 0 {
            let wait = hours.wait(processor);
            out[0] = u32::from(wait.is_some());
            out[1] = wait.unwrap_or(0);
        }
        number
    }

    fn rounds(&self, encoded: &[u8], areas: &mut Areas, out: &mut [u32; ROUNDS_WORDS]) -> u32 {
        *out = [0; ROUNDS_WORDS];
        let made = match self.made(encoded, Route::Direct) {
            Ok(made) => made,
            Err(number) => return number,
        };
        if made.area(areas) {
            return 9;
        }
        assert_eq!(self.fresh(encoded, Route::Direct, areas), 0);
        out[0] = made.drive(areas);
        0
    }

    fn rounds_of(&self, encoded: &[u8], rounds: &mut [u32]) -> u32 {
        let made = match self.made(encoded, Route::Direct) {
            Ok(made) => made,
            Err(number) => return number,
        };
        if rounds.len() as u64 != made.view.tiles() {
            return 9;
        }
        rounds.copy_from_slice(&made.tile_rounds());
        0
    }

    /// reading alone: the messages of a large recipe would take long
    fn read(&self, encoded: &[u8]) -> Result<Numbers, u32> {
        match self.view(encoded).read() {
            0 => Ok(Numbers::of(encoded)),
            number => Err(number),
        }
    }

    fn write(&self, numbers: &Numbers, space: &mut [u8]) -> u32 {
        let bytes = numbers.bytes();
        match self.view(&bytes).read() {
            0 if space.len() == bytes.len() => space.copy_from_slice(&bytes),
            0 => return 9,
            number => return number,
        }
        0
    }

    fn part_sizes(&self, encoded: &[u8], route: Route, processor: u32, out: &mut [u32; PART_SIZES_WORDS]) -> u32 {
        *out = [0; PART_SIZES_WORDS];
        let made = match self.made(encoded, route) {
            Ok(made) => made,
            Err(number) => return number,
        };
        let number = made.own_lines(processor, &|| false);
        if number == 0 {
            out.copy_from_slice(&made.part_sizes(processor).map(|length| length as u32));
        }
        number
    }

    fn part_messages(&self, encoded: &[u8], route: Route, processor: u32, out: &mut [u32]) -> u32 {
        let made = match self.made(encoded, route) {
            Ok(made) => made,
            Err(number) => return number,
        };
        let handled = made.handled(processor);
        let number = made.own_lines(processor, &|| out.len() != PART_ROW_WORDS * handled.len());
        if number == 0 {
            let mut place = 0;
            for (row, m) in out.chunks_mut(PART_ROW_WORDS).zip(handled) {
                let (sender, taker, ref cells) = made.messages[m];
                let told = if self.fault == Some(Fault::OwnPlaceInBuffer) { made.offset(m) } else { place };
                let [from, to] = [sender, taker].map(|tile| made.view.processor(tile));
                let [sender, taker] = [sender, taker].map(|tile| made.view.dense(tile));
                let words = [m as u64, sender, taker, from, to, cells.len() as u64, told as u64];
                row.iter_mut().zip(words).for_each(|(word, number)| *word = number as u32);
                place += cells.len();
            }
        }
        number
    }

    fn part_fresh(&self, encoded: &[u8], route: Route, part: &mut Part, processor: u32) -> u32 {
        self.on_areas(encoded, route, part, processor, &|_| false, &mut |areas| self.fresh(encoded, route, areas))
    }

    fn part_turn(&self, encoded: &[u8], route: Route, part: &mut Part, processor: u32) -> u32 {
        let length = part.source.len();
        let wrong = move |made: &Made| length != made.own_cells(processor).len();
        self.on_areas(encoded, route, part, processor, &wrong, &mut |areas| self.turn(encoded, route, areas, processor))
    }

    fn part_post(&self, encoded: &[u8], route: Route, part: &mut Part, processor: u32, message: u32) -> u32 {
        let post = &mut |areas: &mut Areas| self.deliver(encoded, route, areas, message);
        self.on_areas(encoded, route, part, processor, &|_| false, post)
    }

    fn part_arrive(
        &self, encoded: &[u8], route: Route, part: &mut Part, processor: u32, message: u32, words: &[u32],
    ) -> u32 {
        let m = message as usize;
        let wrong = |made: &Made| made.messages.get(m).is_some_and(|found| found.2.len() != words.len());
        let arrive = &mut |areas: &mut Areas| {
            let made = match self.made(encoded, route) {
                Ok(made) => made,
                Err(number) => return number,
            };
            let sender = self.fault == Some(Fault::OwnArrivesAtSender);
            let here = |&(from, to, _): &(u64, u64, Vec<u64>)| {
                made.is_at(to, processor) || (sender && made.is_at(from, processor))
            };
            let again = self.fault == Some(Fault::OwnArrivesAgain);
            let number = first(&[
                (10, &|| made.unfit(areas, None)),
                (11, &|| !made.messages.get(m).is_some_and(here)),
                (14, &|| areas.status[m] != 0 && !(again && areas.status[m] == 2)),
            ]);
            if number == 0 {
                areas.buffer[made.offset(m)..][..words.len()].copy_from_slice(words);
                areas.status[m] = 2;
            }
            number
        };
        self.on_areas(encoded, route, part, processor, &wrong, arrive)
    }

    fn part_collect(&self, encoded: &[u8], route: Route, part: &mut Part, processor: u32, grid: &mut [u32]) -> u32 {
        let made = match self.made(encoded, route) {
            Ok(made) => made,
            Err(number) => return number,
        };
        let (kept, cells) = (made.kept(processor), made.view.cells() as usize);
        let lengths = [part.memory.len(), part.progress.len(), grid.len()];
        let number = match made.own_lines(processor, &|| lengths != [kept.len(), 1, cells]) {
            0 if made.unfit_record(processor as usize, part.progress[0]) => 10,
            0 if (part.progress[0].finished as usize) < made.view.tiles_of(u64::from(processor)).len() => 15,
            number => number,
        };
        if number == 0 {
            for (cell, word) in grid.iter_mut().enumerate() {
                let place = kept.iter().position(|&found| found == cell);
                if !made.view.within(&made.view.cell(cell as u64)) {
                    let outside = made.view.boundary() as u32;
                    *word = if self.fault == Some(Fault::OwnOutsideKept) { *word } else { outside };
                } else if self.fault == Some(Fault::OwnCollectsKept) || made.owns(processor, cell as u64) {
                    *word = place.map_or(*word, |place| part.memory[place]);
                }
            }
        }
        number
    }
}

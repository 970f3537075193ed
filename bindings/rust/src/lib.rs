//! Safe calls of the proved tiled sweep engine.
//!
//! A recipe's bytes go to every call, and the call is lent the areas it works on as slices. Each call either is
//! done or gives the [`Refusal`] of the first true line of the table of numbers (docs/RECIPE.md), and then no lent word has changed.
//! A length that does not fit is no danger: it is [`Refusal::Area`].
//!
//! [`Run`] owns the areas of one run, with the right sizes, and is the short way:
//!
//! ```
//! use rolwyddac::{Fields, Refusal, Route, Run};
//!
//! # fn main() -> Result<(), Refusal> {
//! // a line of four cells in tiles of two on two processors; each cell adds the one before it
//! let recipe = Fields::new().dimension(4, 2, 2).dimension(1, 1, 0).distance(&[1, 0], 1).close(0, 0)?;
//! let source = [1; 4];
//! let mut run = Run::start(&recipe, Route::Direct, &source)?;
//! assert_eq!(run.turn(1), Err(Refusal::Waiting));
//! run.finish()?;
//! assert_eq!(run.collect()?, [1, 2, 3, 4]);
//! # Ok(())
//! # }
//! ```
//!
//! [`Rig`] owns the areas of two offices that share the processors, [`Board`] those of one processor that shares no memory with
//! the others, [`PartBoard`] the part of one that has memory for nothing else.

#![warn(missing_docs)]

mod mail;
mod part;
mod recipe;
mod refusal;
mod rig;
mod run;

pub use mail::{awaited, messages, owners, Awaited, Board, Row};
pub use part::{part_messages, part_source, PartAreas, PartBoard, PartRow, PartSizes};
pub use recipe::{Fields, Recipe, Tables};
pub use refusal::Refusal;
pub use rig::Rig;
pub use run::{Areas, Run};

/// How messages travel. The routes have messages of their own, and so other sizes of buffer and status; all calls of a
/// run are given the same one.
#[repr(u32)]
#[derive(Clone, Copy, Debug, Default, PartialEq, Eq, Hash)]
pub enum Route {
    /// Each message goes straight to the processor of its taking tile.
    #[default]
    Direct = 0,
    /// Messages go between neighbours only, one spread dimension at a time and the lowest first; what a tile passes on goes
    /// with its own cells. A recipe with bounds has no such route: [`Refusal::DirectOnly`].
    Indirect = 1,
}

/// How far a processor is.
#[repr(C)]
#[derive(Clone, Copy, Debug, Default, PartialEq, Eq)]
pub struct Progress {
    /// Tiles finished.
    pub finished: u32,
    /// Stage of the current tile: 0 gather, 1 calculate, 2 send.
    pub stage: u32,
    /// Messages of the current tile that are sent.
    pub sent: u32,
}

/// The totals of a plan.
#[derive(Clone, Copy, Debug, PartialEq, Eq)]
pub struct Summary {
    /// Cells of the box, those outside the shape too: words of source and grid, and of each processor's memory.
    pub cells: usize,
    /// Processors: records of progress.
    pub processors: usize,
    /// Tiles that hold a cell.
    pub tiles: u32,
    /// Messages: bytes of status.
    pub messages: u32,
    /// Words of all messages: words of the buffer.
    pub words: u32,
    /// Steps of a whole run: 2 × tiles + 2 × messages.
    pub steps: u32,
}

/// The totals of a plan as [`summary_words`] tells them; [`Summary`] has those of the recipe beside them.
#[repr(C)]
#[derive(Clone, Copy, Debug, PartialEq, Eq)]
pub struct Figures {
    /// Tiles that hold a cell.
    pub tiles: u32,
    /// Messages.
    pub messages: u32,
    /// Words of all messages.
    pub words: u32,
    /// Steps of a whole run.
    pub steps: u32,
}

/// The line of one message.
#[repr(C)]
#[derive(Clone, Copy, Debug, PartialEq, Eq)]
pub struct Message {
    /// The tile that sends it.
    pub sending_tile: u32,
    /// The tile that takes it: the first that holds a cell, at or after the one ahead in the message's direction, in that
    /// one's chain. Without bounds that is the one ahead itself.
    pub taking_tile: u32,
    /// The processor of the sending tile.
    pub sending_processor: u32,
    /// The processor of the taking tile.
    pub taking_processor: u32,
    /// Its words.
    pub words: u32,
}

/// One record of a file of soundings, for [`soundings`].
#[derive(Clone, Copy, Debug, PartialEq, Eq)]
pub struct Sounding {
    /// The cell's number.
    pub cell: u32,
    /// The day of the survey; a later day counts before an earlier one.
    pub day: u32,
    /// The survey's number; of one day the greater counts.
    pub survey: u32,
    /// The depth in millimetres.
    pub depth: u32,
}

impl Sounding {
    /// The record's 16 bytes; a file is one record after the other.
    pub fn bytes(self) -> [u8; 16] {
        let mut bytes = [0; 16];
        let words = [self.cell, self.day, self.survey, self.depth];
        bytes.chunks_exact_mut(4).zip(words).for_each(|(place, word)| place.copy_from_slice(&word.to_le_bytes()));
        bytes
    }
}

/// When a processor next opens.
#[derive(Clone, Copy, Debug, PartialEq, Eq)]
pub enum Opening {
    /// In so many minutes, going past the end of the week to the same table; 0 while it is open.
    OpensIn(u32),
    /// At no minute of the week.
    Never,
}

/// When a processor next opens, as [`opens_words`] tells it; [`Opening`] is the handier form.
#[repr(C)]
#[derive(Clone, Copy, Debug, PartialEq, Eq)]
pub struct Opens {
    /// 1, or 0 where it never opens.
    pub opens: u32,
    /// The minutes until then, and 0 where it never opens.
    pub minutes: u32,
}

/// A processor's part of an office's memories, as [`view_words`] tells it.
#[repr(C)]
#[derive(Clone, Copy, Debug, PartialEq, Eq)]
pub struct Viewed {
    /// Where it begins.
    pub begin: u32,
    /// Its words.
    pub length: u32,
}

/// What a packet says beside recipe, route and run, which [`packet_read`] is asked for.
#[repr(C)]
#[derive(Clone, Copy, Debug, PartialEq, Eq)]
pub struct PacketLine {
    /// 1 for a chunk of a message; every other kind is the program's own.
    pub kind: u32,
    /// Who sent it.
    pub sender: u32,
    /// For whom it is.
    pub taker: u32,
    /// The message's number, or what a kind of the program's own numbers.
    pub item: u32,
    /// Which chunk of the item it brings.
    pub chunk: u32,
    /// How many chunks the item has.
    pub chunks: u32,
    /// How many words it brings.
    pub count: u32,
    /// The life of the board that sent it.
    pub life: u64,
}

/// What became of a chunk: see [`chunk`].
#[repr(C)]
#[derive(Clone, Copy, Debug, PartialEq, Eq)]
pub struct Taken {
    /// 1 where all chunks of the item are there now.
    pub whole: u32,
    /// The chunks that are there now.
    pub mask: u64,
}

/// What became of bytes that came for a processor: see [`receive`].
#[repr(C)]
#[derive(Clone, Copy, Debug, PartialEq, Eq)]
pub struct Received {
    /// 1 where the message is whole with them, and was taken in.
    pub whole: u32,
    /// The message of which they brought a chunk.
    pub message: u32,
}

/// What a call tells, and what the exported function returns for it: the number first.
trait Tells: Sized {
    type Answer;

    fn parts(answer: Self::Answer) -> (u32, Self);

    fn done(answer: Self::Answer) -> Result<Self, Refusal> {
        let (number, told) = Self::parts(answer);
        Refusal::of(number).map(|()| told)
    }
}

/// What an exported call returns by value: its number, and behind it what it tells, all zero where it refuses.
#[repr(C)]
struct Told<T> {
    number: u32,
    told: T,
}

/// Those that lie behind the number as they would by themselves.
macro_rules! tells {
    ($($told:ty),*) => {$(
        impl Tells for $told {
            type Answer = Told<$told>;

            fn parts(answer: Told<$told>) -> (u32, $told) {
                (answer.number, answer.told)
            }
        }
    )*};
}

tells!(u32, u64, Figures, Message, Opens, Viewed, PartSizes, Tables, Received);

/// A word of 64 bits behind others would lie elsewhere in a struct of its own.
#[repr(C)]
struct AnsweredLine {
    number: u32,
    kind: u32,
    sender: u32,
    taker: u32,
    item: u32,
    chunk: u32,
    chunks: u32,
    count: u32,
    life: u64,
}

impl Tells for PacketLine {
    type Answer = AnsweredLine;

    fn parts(answer: AnsweredLine) -> (u32, PacketLine) {
        let AnsweredLine { number, kind, sender, taker, item, chunk, chunks, count, life } = answer;
        (number, PacketLine { kind, sender, taker, item, chunk, chunks, count, life })
    }
}

#[repr(C)]
struct AnsweredTaken {
    number: u32,
    whole: u32,
    mask: u64,
}

impl Tells for Taken {
    type Answer = AnsweredTaken;

    fn parts(answer: AnsweredTaken) -> (u32, Taken) {
        (answer.number, Taken { whole: answer.whole, mask: answer.mask })
    }
}

/// Bytes of the longest chart there is: 16,384 cells of ten digits, each with a space or a line feed behind it, under a
/// header of 98 bytes. Every chart fits a space of this length.
pub const LONGEST_CHART: usize = 180_322;

/// Bytes of the longest packet: the length of every space for one.
pub const LONGEST_PACKET: usize = 1200;

/// The most words that a packet brings.
pub const PACKET_WORDS: usize = 285;

/// A packet's kind where it brings a chunk of a message.
pub const KIND_MESSAGE: u32 = 1;

/// Declares each exported call and makes its safe form. A slice goes over as its pointer and its length; a number
/// as it is, and so does a route, which is laid out as a word. What a call tells comes back behind its number.
macro_rules! calls {
    ($($(#[$doc:meta])* $exported:ident as $name:ident($($parameters:tt)*) $(-> $told:ty)?;)*) => {$(
        $(#[$doc])*
        #[inline]
        #[allow(clippy::too_many_arguments)] // as they are exported
        pub fn $name($($parameters)*) -> Result<calls!(@told $($told)?), Refusal> {
            calls!(@ $exported [$($told)?] [] [] $($parameters)*)
        }
    )*};
    (@told) => { () };
    (@told $told:ty) => { $told };
    (@ $exported:ident $told:tt [$($declared:tt)*] [$($given:tt)*] $area:ident: &mut [$element:ty] $(, $($rest:tt)*)?) => {
        calls!(@ $exported $told [$($declared)* $area: *mut $element, _: usize,]
            [$($given)* $area.as_mut_ptr(), $area.len(),] $($($rest)*)?)
    };
    (@ $exported:ident $told:tt [$($declared:tt)*] [$($given:tt)*] $area:ident: &[$element:ty] $(, $($rest:tt)*)?) => {
        calls!(@ $exported $told [$($declared)* $area: *const $element, _: usize,]
            [$($given)* $area.as_ptr(), $area.len(),] $($($rest)*)?)
    };
    (@ $exported:ident $told:tt [$($declared:tt)*] [$($given:tt)*] $number:ident: $width:ident $(, $($rest:tt)*)?) => {
        calls!(@ $exported $told [$($declared)* $number: $width,] [$($given)* $number,] $($($rest)*)?)
    };
    (@ $exported:ident [] [$($declared:tt)*] [$($given:tt)*]) => {{
        extern "C" {
            fn $exported($($declared)*) -> u32;
        }
        // SAFETY: pointers and lengths come from slices, so they are aligned, not null and in bounds; what is written
        // is borrowed mutably, so nothing overlaps. The engine keeps no pointer.
        Refusal::of(unsafe { $exported($($given)*) })
    }};
    (@ $exported:ident [$told:ty] [$($declared:tt)*] [$($given:tt)*]) => {{
        extern "C" {
            fn $exported($($declared)*) -> <$told as Tells>::Answer;
        }
        // SAFETY: as above.
        <$told as Tells>::done(unsafe { $exported($($given)*) })
    }};
}

calls! {
    /// Makes a fresh start: writes zero to `memories`, `buffer`, `progress` and `status`, whatever they held.
    ///
    /// Refusals: 1 to 9, 16 to 18, 20 and 21.
    rolwyddac_fresh as fresh(
        encoded: &[u8], route: Route, source: &[u32], memories: &mut [u32], buffer: &mut [u32],
        progress: &mut [Progress], status: &mut [u8],
    );

    /// Gives one processor a turn: it does the stage at which its record stands, once.
    ///
    /// - Gather unpacks the messages due at its tile into its memory and marks them taken.
    /// - Calculate gives the tile's cells their values there, reading only that memory and `source`.
    /// - Send packs the next message into the buffer and marks it in flight.
    ///
    /// Refusals: 1 to 13, 16 to 18, 20 and 21.
    rolwyddac_turn as turn(
        encoded: &[u8], route: Route, source: &[u32], memories: &mut [u32], buffer: &mut [u32],
        progress: &mut [Progress], status: &mut [u8], processor: u32,
    );

    /// Delivers one message: its status goes from 1 to 2.
    ///
    /// Refusals: 1 to 11, 14, 16 to 18, 20 and 21.
    rolwyddac_deliver as deliver(
        encoded: &[u8], route: Route, source: &[u32], memories: &[u32], buffer: &[u32], progress: &[Progress],
        status: &mut [u8], message: u32,
    );

    /// Copies each cell to `grid` from the memory of its tile's processor, once all processors have finished; a cell outside
    /// the shape gets the boundary value.
    ///
    /// Where it is done, and all calls since the fresh start were turns and deliveries given this recipe, route and
    /// `source` and lent the areas as the last left them, `grid` is what [`sweep`] writes.
    ///
    /// Refusals: 1 to 10, 15 to 18, 20 and 21.
    rolwyddac_collect as collect(
        encoded: &[u8], route: Route, source: &[u32], memories: &[u32], buffer: &[u32], progress: &[Progress],
        status: &[u8], grid: &mut [u32],
    );

    /// Sweeps the whole nest in index order on one processor and writes each cell's value to `grid`, outside the shape the
    /// boundary value.
    ///
    /// Refusals: 1 to 9, 16 to 18 and 20.
    rolwyddac_sweep as sweep(encoded: &[u8], source: &[u32], grid: &mut [u32]);

    /// Drives a whole run by rounds, on the direct route: makes a fresh start and goes on to the run's end. Tells the rounds.
    /// [`Run::by_rounds`] does it with areas of its own.
    ///
    /// In a round every processor that could gather at the round's start does its whole tile, then each message in flight is
    /// delivered. The rounds are the greatest that [`rounds_of_words`] writes, and no other plan of whole tiles has fewer.
    /// [`collect`] then gives what [`sweep`] writes.
    ///
    /// Refusals: 1 to 9, 16 to 18 and 20.
    rolwyddac_rounds as rounds(
        encoded: &[u8], source: &[u32], memories: &mut [u32], buffer: &mut [u32], progress: &mut [Progress],
        status: &mut [u8],
    ) -> u32;

    /// Writes each tile's round to `rounds`, one word a tile: one more than the latest round among the tiles that it waits
    /// for, its processor's previous tile and those that send to it; 1 where there are none. [`rounds_of`] is the handier
    /// form.
    ///
    /// Refusals: 1 to 8, 16 to 18, 20, and 9 if `rounds` has not one word a tile.
    rolwyddac_rounds_of as rounds_of_words(encoded: &[u8], rounds: &mut [u32]);

    /// Tells the plan's totals on the route. [`summary`] is the handier form.
    ///
    /// Refusals: 1 to 8, 16 to 18, 20 and 21.
    rolwyddac_summary as summary_words(encoded: &[u8], route: Route) -> Figures;

    /// Tells the line of a message of the route. On the indirect route its words are those of the sending tile's own cells and of
    /// those it passes on.
    ///
    /// Refusals: 1 to 8, 11, 16 to 18, 20 and 21.
    rolwyddac_message as message(encoded: &[u8], route: Route, message: u32) -> Message;

    /// Tells how many wires a message of the direct route takes on the indirect one: as many as dimensions in which it
    /// crosses, those with one processor left out.
    ///
    /// Refusals: 1 to 8, 11, 16 to 18 and 20.
    rolwyddac_hops as hops(encoded: &[u8], message: u32) -> u32;

    /// Makes a fresh start of both offices together: writes zero to the memories, buffer, progress and status of each, and 2
    /// to every word of `engaged`, whatever they held. [`Rig`] is the handier form.
    ///
    /// Refusals: 1 to 9, 16 to 18, 20 and 21.
    rolwyddac_fresh_both as fresh_both(
        encoded: &[u8], route: Route, first_source: &[u32], first_memories: &mut [u32], first_buffer: &mut [u32],
        first_progress: &mut [Progress], first_status: &mut [u8], second_source: &[u32], second_memories: &mut [u32],
        second_buffer: &mut [u32], second_progress: &mut [Progress], second_status: &mut [u8], engaged: &mut [u32],
    );

    /// Gives one processor a turn for an office, as [`turn`] does on its areas. A gather engages the processor to the office,
    /// the last step of that tile frees it.
    ///
    /// `other` are the other office's records. An office number above 1 is 11, here and in the next two before 10.
    ///
    /// Refusals: 1 to 13 and 16 to 21.
    rolwyddac_tenant_turn as tenant_turn(
        encoded: &[u8], route: Route, source: &[u32], memories: &mut [u32], buffer: &mut [u32],
        progress: &mut [Progress], status: &mut [u8], engaged: &mut [u32], other: &[Progress], tenant: u32,
        processor: u32,
    );

    /// Delivers one message of an office: its status goes from 1 to 2.
    ///
    /// Refusals: 1 to 11, 14, 16 to 18, 20 and 21.
    rolwyddac_tenant_deliver as tenant_deliver(
        encoded: &[u8], route: Route, source: &[u32], memories: &[u32], buffer: &[u32], progress: &[Progress],
        status: &mut [u8], engaged: &[u32], other: &[Progress], tenant: u32, message: u32,
    );

    /// Copies each cell to `grid` from the office's memory of its tile's processor, once all processors have finished for it.
    ///
    /// Where it is done, and all calls since the fresh start of both offices were turns and deliveries given this recipe,
    /// route and each its office's source and lent the areas as the last left them, `grid` is what [`sweep`] writes for
    /// `source`.
    ///
    /// Refusals: 1 to 11, 15 to 18, 20 and 21.
    rolwyddac_tenant_collect as tenant_collect(
        encoded: &[u8], route: Route, source: &[u32], memories: &[u32], buffer: &[u32], progress: &[Progress],
        status: &[u8], engaged: &[u32], other: &[Progress], tenant: u32, grid: &mut [u32],
    );

    /// A view of a processor's memory, lent the memories of both offices: tells where the processor's part begins in the named
    /// office's memories and how many words it has. [`view`] is the handier form.
    ///
    /// Refusals: 1 to 8, 16 to 18, 20, 9 if memories have not their length, 11.
    rolwyddac_view as view_words(
        encoded: &[u8], first: &[u32], second: &[u32], tenant: u32, processor: u32,
    ) -> Viewed;

    /// Fills `source` from a file of soundings: of each cell the depth of the record that counts, or `value` where there is
    /// none.
    ///
    /// A record has 16 bytes: cell number, survey day, survey number and depth, each a word, least byte first. Of a
    /// cell's records the one with the greatest day counts; of these, with the greatest survey number; of these, the
    /// latest in the file ([`Sounding`] makes them). An empty file is allowed. The call has some 200 kilobytes of its own
    /// on the stack.
    ///
    /// Refusals: 1 to 9, 16 to 18, 20, 22.
    rolwyddac_soundings as soundings(encoded: &[u8], file: &[u8], value: u32, source: &mut [u32]);

    /// Writes the grid's text for the charting desk to the front of `space`, and tells its length in bytes. [`chart`] is the
    /// handier form.
    ///
    /// The text is an Esri ASCII grid of whole numbers: ncols, nrows, xllcorner (`x`), yllcorner (`y`), cellsize and
    /// NODATA_value lines, then a line for each row, first row first. It is for recipes of two dimensions. Bytes of
    /// `space` behind the text stay as they were. No text has more than [`LONGEST_CHART`] bytes.
    ///
    /// A `grid` that has not one word a cell and a `space` shorter than the text: each is 9.
    ///
    /// Refusals: 1 to 9, 16 to 18, 20, 23.
    rolwyddac_chart as chart_words(
        encoded: &[u8], grid: &[u32], x: i32, y: i32, cell_size: u32, space: &mut [u8],
    ) -> u32;

    /// Tells the length in bytes of the text that [`chart`] gives.
    ///
    /// Refusals: 1 to 8, 16 to 18, 20, 23, and 9 if `grid` has not one word a cell.
    rolwyddac_chart_length as chart_length(encoded: &[u8], grid: &[u32], x: i32, y: i32, cell_size: u32) -> u32;

    /// Gives one processor a turn at a minute of the week, as [`turn`] does, if it is open then.
    ///
    /// `hours` has 28 words a processor: 14 pairs of open and close, in minutes of the week, open below close and close at most
    /// 10,080; a pair of zeros is no window. A faulty pair of any processor is 25.
    ///
    /// Refusals: 1 to 13, 16 to 18, 20, 21, 24 and 25.
    rolwyddac_turn_at as turn_at(
        encoded: &[u8], route: Route, source: &[u32], memories: &mut [u32], buffer: &mut [u32],
        progress: &mut [Progress], status: &mut [u8], hours: &[u32], minute: u32, processor: u32,
    );

    /// Gives one processor a turn for an office at a minute of the week, as [`tenant_turn`] does, if it is open then.
    ///
    /// Refusals: 1 to 13, 16 to 21, 24 and 25.
    rolwyddac_tenant_turn_at as tenant_turn_at(
        encoded: &[u8], route: Route, source: &[u32], memories: &mut [u32], buffer: &mut [u32],
        progress: &mut [Progress], status: &mut [u8], engaged: &mut [u32], other: &[Progress], hours: &[u32],
        minute: u32, tenant: u32, processor: u32,
    );

    /// Tells when a processor next opens, lent only the table of hours. [`opens`] is the handier form.
    ///
    /// Refusals: 1 to 8, 16 to 18, 20, 9 if `hours` has not its length, 25, 11.
    rolwyddac_opens as opens_words(encoded: &[u8], hours: &[u32], minute: u32, processor: u32) -> Opens;

    /// Writes a row of six words for each message of the route to `out`, in the order of their numbers: the five of
    /// [`message`], then where the message's words begin in the buffer. [`messages`] is the handier form.
    ///
    /// Refusals: 1 to 8, 16 to 18, 20, 21, and 9 if `out` has not six words a message.
    rolwyddac_messages as messages_words(encoded: &[u8], route: Route, out: &mut [u32]);

    /// Writes one word for each cell of the box to `out`: the processor of its tile, or the number of processors for a cell
    /// outside the shape, which is in no tile. [`owners`] is the handier form.
    ///
    /// Refusals: 1 to 8, 16 to 18, 20, and 9 if `out` has not one word a cell.
    rolwyddac_owners as owners_words(encoded: &[u8], out: &mut [u32]);

    /// What a processor waits for, lent only the records and the status bytes: tells the tile at which it stands, and writes one
    /// byte a message to `marks`, 1 where the processor is to gather and the message is due at that tile and not delivered,
    /// else 0. Some mark is 1 exactly where [`turn`] would give 12. [`awaited`] is the handier form.
    ///
    /// A processor without tiles left is 13.
    ///
    /// Refusals: 1 to 11, 13, 16 to 18, 20 and 21.
    rolwyddac_awaited as awaited_words(
        encoded: &[u8], route: Route, progress: &[Progress], status: &[u8], processor: u32, marks: &mut [u8],
    ) -> u32;

    /// Takes a message in at its taker, whose own areas are lent: puts `words` into the message's place in the buffer, and its
    /// status goes from 0 to 2.
    ///
    /// Words that are not as many as the message has are 9; a number too high, or a message that this processor does not
    /// take, is 11; a message whose status is not 0, as one that came before, is 14.
    ///
    /// Refusals: 1 to 11, 14, 16 to 18, 20 and 21.
    rolwyddac_take_in as take_in(
        encoded: &[u8], route: Route, source: &[u32], memories: &[u32], buffer: &mut [u32], progress: &[Progress],
        status: &mut [u8], processor: u32, message: u32, words: &[u32],
    );

    /// Tells what recipe and route are known by on the wire, of any bytes.
    ///
    /// Refusals: none.
    rolwyddac_fingerprint as fingerprint(encoded: &[u8], route: Route) -> u64;

    /// Writes a chunk of an item as a packet, from the first byte of `space` on, and tells its bytes. `words` is the whole item, at
    /// most 18,240 words; `space` has [`LONGEST_PACKET`] bytes.
    ///
    /// Refusals: 9 and 11.
    rolwyddac_packet as packet(
        fingerprint: u64, run: u64, life: u64, kind: u32, sender: u32, taker: u32, item: u32, chunk: u32, words: &[u32],
        space: &mut [u8],
    ) -> u32;

    /// Tells what bytes say that came, whatever they are, for this fingerprint and run, and writes their words from the first
    /// place of `words` on. [`PACKET_WORDS`] are enough for every packet.
    ///
    /// Refusals: 9, 26 and 27.
    rolwyddac_packet_read as packet_read(
        fingerprint: u64, run: u64, packet: &[u8], words: &mut [u32],
    ) -> PacketLine;

    /// Puts a chunk that came to its place in the area of its item, which is as long as the item. A chunk that is there already by
    /// the mask changes nothing.
    ///
    /// Refusals: 9 and 11.
    rolwyddac_chunk as chunk(chunk: u32, chunks: u32, words: &[u32], area: &mut [u32], mask: u64) -> Taken;

    /// Writes a chunk of a message that this processor has posted as a packet of this run and life, out of its buffer, and tells
    /// its bytes: the first time, and whenever its taker asks for it again. `space` has [`LONGEST_PACKET`] bytes.
    ///
    /// Refusals: 1 to 9, 11, 14, 16 to 18, 20 and 21.
    rolwyddac_send as send(
        encoded: &[u8], route: Route, run: u64, life: u64, buffer: &[u32], status: &[u8], processor: u32, message: u32,
        chunk: u32, space: &mut [u8],
    ) -> u32;

    /// Takes bytes as they came for a processor, whose own areas are lent: a chunk of a message goes to its place in `parts`, which
    /// has the buffer's length, and is marked in `masks`, one for each message and 0 at a fresh start. Once the message is whole,
    /// and only then, it is taken in as by [`take_in`].
    ///
    /// Refusals: 1 to 11, 14, 16 to 18, 20, 21, 26 and 27.
    rolwyddac_receive as receive(
        encoded: &[u8], route: Route, run: u64, source: &[u32], memories: &[u32], buffer: &mut [u32],
        progress: &[Progress], status: &mut [u8], processor: u32, packet: &[u8], parts: &mut [u32], masks: &mut [u64],
    ) -> Received;

    /// Tells how long the areas of a processor's own part are.
    ///
    /// The calls for a processor's own part test its number before the lengths, which are its own: 11 before 9.
    ///
    /// Refusals: 1 to 8, 11, 16 to 18, 20 and 21.
    rolwyddac_part_sizes as part_sizes(encoded: &[u8], route: Route, processor: u32) -> PartSizes;

    /// Writes a row of seven words for each message that the processor handles to `out`, in the order of their numbers: its number,
    /// then the five of [`message`], then where its words begin in the processor's mail. [`part_messages`] is the handier form.
    ///
    /// Refusals: 1 to 8, 16 to 18, 20, 21, 11, 9 if `out` has not seven words a message.
    rolwyddac_part_messages as part_messages_words(encoded: &[u8], route: Route, processor: u32, out: &mut [u32]);

    /// Makes the fresh start of a processor that is lent its own part alone: writes zero to all four areas, whatever they held.
    /// [`PartBoard`] is the handier form.
    ///
    /// `memory` has a word for each cell that the processor keeps, `mail` the words of the messages that it handles, `progress` one
    /// record, `marks` a byte for each of these messages.
    ///
    /// Refusals: 1 to 9, 11, 16 to 18, 20 and 21.
    rolwyddac_part_fresh as part_fresh(
        encoded: &[u8], route: Route, memory: &mut [u32], mail: &mut [u32], progress: &mut [Progress],
        marks: &mut [u8], processor: u32,
    );

    /// Gives a processor that is lent its own part alone a turn, as [`turn`] does on all areas. `source` has a word for each cell of its
    /// tiles, in index order.
    ///
    /// Refusals: 1 to 13, 16 to 18, 20 and 21.
    rolwyddac_part_turn as part_turn(
        encoded: &[u8], route: Route, source: &[u32], memory: &mut [u32], mail: &mut [u32], progress: &mut [Progress],
        marks: &mut [u8], processor: u32,
    );

    /// Posts a message that a turn has put in flight: its mark goes from 1 to 2, and it is the transport's; its words lie in the mail. A
    /// message that the processor does not handle is 14.
    ///
    /// Refusals: 1 to 11, 14, 16 to 18, 20 and 21.
    rolwyddac_part_post as part_post(
        encoded: &[u8], route: Route, memory: &[u32], mail: &[u32], progress: &[Progress], marks: &mut [u8],
        processor: u32, message: u32,
    );

    /// A message arrives at its taker: puts `words` into its place in the mail, and its mark goes from 0 to 2.
    ///
    /// Words that are not as many as the message has are 9; a number too high, or a message that this processor does not
    /// take, is 11; a message whose mark is not 0, as one that came before, is 14.
    ///
    /// Refusals: 1 to 11, 14, 16 to 18, 20 and 21.
    rolwyddac_part_arrive as part_arrive(
        encoded: &[u8], route: Route, memory: &[u32], mail: &mut [u32], progress: &[Progress], marks: &mut [u8],
        processor: u32, message: u32, words: &[u32],
    );

    /// Puts a processor's part into a grid of all cells, once it has finished: the words of its tiles' cells from its memory, and the
    /// boundary value where a cell is outside the shape. Every other word of `grid` is as before, so that the grid is whole once each
    /// processor's part was put there, in any order.
    ///
    /// Refusals: 1 to 11, 15 to 18, 20 and 21.
    rolwyddac_part_collect as part_collect(
        encoded: &[u8], route: Route, memory: &[u32], progress: &[Progress], processor: u32, grid: &mut [u32],
    );

    /// Tells the fields of a recipe, of which [`write()`] makes the same bytes. [`Recipe::read`] keeps these bytes, and
    /// [`Recipe::fields`] gives lists of the fields.
    ///
    /// Refusals: 1 to 8, 16 to 18 and 20.
    rolwyddac_read as read(encoded: &[u8]) -> Tables;

    /// Writes the recipe of the fields to `space`. [`Fields`] is the handier form.
    ///
    /// - `lengths`, `tiling` and `counts` have one number a dimension: its length, tile length and processor count.
    /// - `components` has four numbers a distance, zero beyond the last dimension, and `weights` one.
    /// - `sides` to `offsets` have one number a bound: 0 for lower or 1 for upper, the dimension bounded, counted from 0,
    ///   an earlier dimension, the slope, -1, 0 or 1, and the offset.
    ///
    /// The recipe has 16 bytes for each dimension, bound and distance, and 16 more. What was written is accepted and
    /// reads back to the fields given. What is refused has the number that reading it would have; lists of other
    /// lengths stand in no recipe and are 2. A distance with a component above 255 is written with kind 4, every
    /// other with kind 2.
    ///
    /// Refusals: 2 to 8, 16, 17, 20, and 9 if `space` has not exactly the recipe's length.
    rolwyddac_write as write(
        lengths: &[u16], tiling: &[u16], counts: &[u16], components: &[u16], weights: &[u16], sides: &[u8],
        bounded: &[u8], earlier: &[u8], slopes: &[i8], offsets: &[i16], shift: u8, boundary: u32, space: &mut [u8],
    );
}

/// The totals of a recipe's plan on a route, which give every area its size.
///
/// Refusals: 1 to 8, 16 to 18, 20 and 21.
pub fn summary(encoded: &[u8], route: Route) -> Result<Summary, Refusal> {
    let Figures { tiles, messages, words, steps } = summary_words(encoded, route)?;
    let recipe = read(encoded)?;
    let dimensions = recipe.dimensions as usize;
    let cells = recipe.lengths[..dimensions].iter().copied().map(usize::from).product();
    let counts = recipe.counts[..dimensions].iter().copied().map(usize::from);
    let processors = counts.filter(|&count| count != 0).product();
    Ok(Summary { cells, processors, tiles, messages, words, steps })
}

/// The part of the named office's memories that is the processor's.
///
/// Refusals: 1 to 9, 11, 16 to 18 and 20.
pub fn view<'a>(
    encoded: &[u8], first: &'a [u32], second: &'a [u32], tenant: u32, processor: u32,
) -> Result<&'a [u32], Refusal> {
    let Viewed { begin, length } = view_words(encoded, first, second, tenant, processor)?;
    let begin = begin as usize;
    Ok(&(if tenant == 0 { first } else { second })[begin..begin + length as usize])
}

/// A grid's text for the charting desk: an Esri ASCII grid with the corner `x`, `y` and the cell size given.
///
/// Refusals: 1 to 9, 16 to 18, 20, 23.
///
/// ```
/// # fn main() -> Result<(), rolwyddac::Refusal> {
/// let recipe = rolwyddac::Fields::new().dimension(2, 1, 2).dimension(3, 3, 0).distance(&[1, 0], 1).close(0, 0)?;
/// let text = rolwyddac::chart(&recipe, &[0, 10, 200, 3, 40, 500], -3, 20, 50)?;
/// assert_eq!(
///     text,
///     "ncols 3\nnrows 2\nxllcorner -3\nyllcorner 20\ncellsize 50\nNODATA_value -9999\n0 10 200\n3 40 500\n"
/// );
/// # Ok(())
/// # }
/// ```
pub fn chart(encoded: &[u8], grid: &[u32], x: i32, y: i32, cell_size: u32) -> Result<String, Refusal> {
    let mut space = vec![0; chart_length(encoded, grid, x, y, cell_size)? as usize];
    chart_words(encoded, grid, x, y, cell_size, &mut space)?;
    Ok(space.into_iter().map(char::from).collect()) // digits, letters, spaces and line feeds
}

/// When a processor next opens, from a minute of the week on.
///
/// Refusals: 1 to 9, 11, 16 to 18, 20 and 25.
pub fn opens(encoded: &[u8], hours: &[u32], minute: u32, processor: u32) -> Result<Opening, Refusal> {
    let Opens { opens, minutes } = opens_words(encoded, hours, minute, processor)?;
    Ok(if opens == 1 { Opening::OpensIn(minutes) } else { Opening::Never })
}

/// The round of each tile, the first round being 1, when a run goes by rounds: see [`Run::by_rounds`].
///
/// Refusals: 1 to 8, 16 to 18 and 20.
///
/// ```
/// # fn main() -> Result<(), rolwyddac::Refusal> {
/// // four tiles on two processors; each waits for the one before it
/// let recipe = rolwyddac::Fields::new().dimension(8, 2, 2).dimension(1, 1, 0).distance(&[1, 0], 1).close(0, 0)?;
/// assert_eq!(rolwyddac::rounds_of(&recipe)?, [1, 2, 3, 4]);
/// # Ok(())
/// # }
/// ```
pub fn rounds_of(encoded: &[u8]) -> Result<Vec<u32>, Refusal> {
    let mut rounds = vec![0; summary(encoded, Route::Direct)?.tiles as usize];
    rounds_of_words(encoded, &mut rounds)?;
    Ok(rounds)
}

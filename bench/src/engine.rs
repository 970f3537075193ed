//! The calls of the engine, as a trait: the library, the plain models and the calls used for timing all have it.

use crate::recipe::Numbers;

#[cfg(feature = "library")]
pub use rolwyddac::{Progress, Route};

#[cfg(not(feature = "library"))]
#[derive(Clone, Copy, Debug, Default, PartialEq, Eq)]
pub struct Progress {
    pub finished: u32,
    pub stage: u32,
    pub sent: u32,
}

/// how messages travel (W-204): straight to their taking tile, or one spread dimension at a time
#[cfg(not(feature = "library"))]
#[derive(Clone, Copy, Debug, PartialEq, Eq)]
pub enum Route {
    Direct,
    Indirect,
}

/// words of a summary (tiles, messages, words, steps) and of a message's line (sending tile, taking tile, sending
/// processor, taking processor, words)
pub const SUMMARY_WORDS: usize = 4;
pub const MESSAGE_WORDS: usize = 5;
/// and of a message's hops
pub const HOPS_WORDS: usize = 1;

/// the areas of a run, lent to every call
#[derive(Clone, Debug, Default, PartialEq, Eq)]
pub struct Areas {
    pub source: Vec<u32>,
    pub memories: Vec<u32>,
    pub buffer: Vec<u32>,
    pub progress: Vec<Progress>,
    pub status: Vec<u8>,
}

/// two offices' areas, and for each processor the office that it is engaged to, 2 for none (W-208)
#[derive(Clone, Debug, Default, PartialEq, Eq)]
pub struct Rig {
    pub offices: [Areas; 2],
    pub engaged: Vec<u32>,
}

/// one processor's own part of the areas, lent alone: the source of its tiles' cells, the words of the cells that it
/// keeps, the words and marks of the messages that it handles, its one record
#[derive(Clone, Debug, Default, PartialEq, Eq)]
pub struct Part {
    pub source: Vec<u32>,
    pub memory: Vec<u32>,
    pub mail: Vec<u32>,
    pub progress: Vec<Progress>,
    pub marks: Vec<u8>,
}

/// words of a part's lengths (source, memory, mail, messages) and of the row of a message that a processor handles
/// (number, the five of its line, place in the mail)
pub const PART_SIZES_WORDS: usize = 4;
pub const PART_ROW_WORDS: usize = 7;

/// words of a view: where the processor's part begins, and its length
pub const VIEW_WORDS: usize = 2;

/// and of a text's length
pub const CHART_WORDS: usize = 1;

/// the words of a table of hours for each processor: 14 windows, open and close (W-212)
pub const HOURS_WORDS: usize = 28;
/// and of the answer when it opens: whether it ever does, and in how many minutes
pub const OPENS_WORDS: usize = 2;

/// and of the rounds that a driver took
pub const ROUNDS_WORDS: usize = 1;

/// the requests that an engine may lack as yet; only an engine that has one is tried on it
#[derive(Clone, Copy, Debug, PartialEq, Eq)]
pub enum Request {
    /// W-208
    Offices,
    /// W-209: recipes with bounds, no call of its own
    Shapes,
    /// W-210
    Soundings,
    /// W-211
    Chart,
    /// W-212
    Hours,
    /// W-213
    Rounds,
    /// calls for one processor that is lent its own part alone
    Own,
}

/// Each call gives its number; at any but 0 no lent word changes. `out` is no lent word but what is told by value: at any
/// number but 0 it is filled with 0.
pub trait Engine {
    fn name(&self) -> String;

    fn has(&self, _request: Request) -> bool {
        false
    }

    fn fresh(&self, encoded: &[u8], route: Route, areas: &mut Areas) -> u32;
    fn turn(&self, encoded: &[u8], route: Route, areas: &mut Areas, processor: u32) -> u32;
    fn deliver(&self, encoded: &[u8], route: Route, areas: &mut Areas, message: u32) -> u32;
    fn collect(&self, encoded: &[u8], route: Route, areas: &mut Areas, grid: &mut [u32]) -> u32;
    fn sweep(&self, encoded: &[u8], source: &[u32], grid: &mut [u32]) -> u32;
    fn summary(&self, encoded: &[u8], route: Route, out: &mut [u32; SUMMARY_WORDS]) -> u32;
    fn message(&self, encoded: &[u8], route: Route, message: u32, out: &mut [u32; MESSAGE_WORDS]) -> u32;
    /// the hops of a direct message on the indirect route
    fn hops(&self, encoded: &[u8], message: u32, out: &mut [u32; HOPS_WORDS]) -> u32;

    fn fresh_both(&self, _encoded: &[u8], _route: Route, _rig: &mut Rig) -> u32 {
        unimplemented!("W-208")
    }

    /// a turn for an office, which is lent the other's records
    fn tenant_turn(
        &self, _encoded: &[u8], _route: Route, _areas: &mut Areas, _engaged: &mut [u32], _other: &[Progress],
        _office: u32, _processor: u32,
    ) -> u32 {
        unimplemented!("W-208")
    }

    fn tenant_deliver(
        &self, _encoded: &[u8], _route: Route, _areas: &mut Areas, _engaged: &[u32], _other: &[Progress], _office: u32,
        _message: u32,
    ) -> u32 {
        unimplemented!("W-208")
    }

    fn tenant_collect(
        &self, _encoded: &[u8], _route: Route, _areas: &mut Areas, _engaged: &[u32], _other: &[Progress], _office: u32,
        _grid: &mut [u32],
    ) -> u32 {
        unimplemented!("W-208")
    }

    /// which part of the office's memories is the processor's
    fn view_of(
        &self, _encoded: &[u8], _memories: [&[u32]; 2], _office: u32, _processor: u32, _out: &mut [u32; VIEW_WORDS],
    ) -> u32 {
        unimplemented!("W-208")
    }

    /// the source from a file of surveyed depths, `value` where there is none
    fn soundings(&self, _encoded: &[u8], _file: &[u8], _value: u32, _source: &mut [u32]) -> u32 {
        unimplemented!("W-210")
    }

    /// the grid as text for the charting desk, with the corners and the cell size; `out` is told its length
    fn chart(
        &self, _encoded: &[u8], _grid: &[u32], _corners: [i32; 2], _cell_size: u32, _space: &mut [u8],
        _out: &mut [u32; CHART_WORDS],
    ) -> u32 {
        unimplemented!("W-211")
    }

    /// the text's length alone
    fn chart_length(
        &self, _encoded: &[u8], _grid: &[u32], _corners: [i32; 2], _cell_size: u32, _out: &mut [u32; CHART_WORDS],
    ) -> u32 {
        unimplemented!("W-211")
    }

    /// a turn at a minute of the week
    fn turn_at(
        &self, _encoded: &[u8], _route: Route, _areas: &mut Areas, _hours: &[u32], _minute: u32, _processor: u32,
    ) -> u32 {
        unimplemented!("W-212")
    }

    fn tenant_turn_at(
        &self, _encoded: &[u8], _route: Route, _areas: &mut Areas, _engaged: &mut [u32], _other: &[Progress],
        _hours: &[u32], _minute: u32, _office: u32, _processor: u32,
    ) -> u32 {
        unimplemented!("W-212")
    }

    /// the minutes until the processor opens
    fn opens(
        &self, _encoded: &[u8], _hours: &[u32], _minute: u32, _processor: u32, _out: &mut [u32; OPENS_WORDS],
    ) -> u32 {
        unimplemented!("W-212")
    }

    /// drives the whole run by rounds, on the direct route; `out` is told how many
    fn rounds(&self, _encoded: &[u8], _areas: &mut Areas, _out: &mut [u32; ROUNDS_WORDS]) -> u32 {
        unimplemented!("W-213")
    }

    /// the round of each tile
    fn rounds_of(&self, _encoded: &[u8], _rounds: &mut [u32]) -> u32 {
        unimplemented!("W-213")
    }

    fn part_sizes(&self, _encoded: &[u8], _route: Route, _processor: u32, _out: &mut [u32; PART_SIZES_WORDS]) -> u32 {
        unimplemented!("own parts")
    }

    fn part_messages(&self, _encoded: &[u8], _route: Route, _processor: u32, _out: &mut [u32]) -> u32 {
        unimplemented!("own parts")
    }

    fn part_fresh(&self, _encoded: &[u8], _route: Route, _part: &mut Part, _processor: u32) -> u32 {
        unimplemented!("own parts")
    }

    fn part_turn(&self, _encoded: &[u8], _route: Route, _part: &mut Part, _processor: u32) -> u32 {
        unimplemented!("own parts")
    }

    fn part_post(&self, _encoded: &[u8], _route: Route, _part: &mut Part, _processor: u32, _message: u32) -> u32 {
        unimplemented!("own parts")
    }

    fn part_arrive(
        &self, _encoded: &[u8], _route: Route, _part: &mut Part, _processor: u32, _message: u32, _words: &[u32],
    ) -> u32 {
        unimplemented!("own parts")
    }

    /// the processor's words into a grid of all cells; only its memory and its record are lent
    fn part_collect(
        &self, _encoded: &[u8], _route: Route, _part: &mut Part, _processor: u32, _grid: &mut [u32],
    ) -> u32 {
        unimplemented!("own parts")
    }

    /// The numbers of a recipe, or that of its refusal. Unless an engine has a reader of its own: the bytes taken apart, where
    /// the plan's figures can be had.
    fn read(&self, encoded: &[u8]) -> Result<Numbers, u32> {
        match self.summary(encoded, Route::Direct, &mut [0; SUMMARY_WORDS]) {
            0 => Ok(Numbers::of(encoded)),
            number => Err(number),
        }
    }

    /// The numbers' recipe. Unless an engine has a writer of its own: what reading the bytes gives, then the length.
    fn write(&self, numbers: &Numbers, space: &mut [u8]) -> u32 {
        const AREA: u32 = 9;
        let bytes = numbers.bytes();
        match self.summary(&bytes, Route::Direct, &mut [0; SUMMARY_WORDS]) {
            0 if space.len() == bytes.len() => space.copy_from_slice(&bytes),
            0 => return AREA,
            number => return number,
        }
        0
    }
}

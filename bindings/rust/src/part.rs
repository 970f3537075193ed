//! One processor that has memory for its own part alone, in handy forms.

use crate::{
    owners, part_arrive, part_collect, part_fresh, part_messages_words, part_post, part_sizes, part_turn, Awaited,
    Message, Progress, Refusal, Route,
};

const ROW_WORDS: usize = 7;

const UNSENT: u8 = 0;
const IN_FLIGHT: u8 = 1;

/// How long the areas of a processor's own part are.
#[repr(C)]
#[derive(Clone, Copy, Debug, PartialEq, Eq)]
pub struct PartSizes {
    /// Words of its source: the cells of its tiles.
    pub source: u32,
    /// Words of its memory: the cells that it keeps, those of its tiles and those that a message to one of them brings.
    pub memory: u32,
    /// Words of its mail: those of the messages that its tiles send or take.
    pub mail: u32,
    /// How many these messages are: bytes of its marks.
    pub messages: u32,
}

/// A message that a processor handles.
#[derive(Clone, Copy, Debug, PartialEq, Eq)]
pub struct PartRow {
    /// Its number.
    pub message: u32,
    /// Its tiles, their processors and its words.
    pub line: Message,
    /// Where its words begin in the processor's mail.
    pub place: u32,
}

/// The areas of a processor's own part that a run changes.
#[derive(Clone, Debug, PartialEq, Eq)]
pub struct PartAreas {
    /// One word for each cell that it keeps, in index order.
    pub memory: Vec<u32>,
    /// The words of the messages that it handles, in the order of their numbers.
    pub mail: Vec<u32>,
    /// Its record.
    pub progress: [Progress; 1],
    /// One byte for each of these messages: 0 unsent, 1 in flight, 2 delivered, 3 taken.
    pub marks: Vec<u8>,
}

impl PartAreas {
    /// Areas of these sizes, all zero.
    pub fn sized(sizes: &PartSizes) -> PartAreas {
        PartAreas {
            memory: vec![0; sizes.memory as usize],
            mail: vec![0; sizes.mail as usize],
            progress: [Progress::default()],
            marks: vec![0; sizes.messages as usize],
        }
    }
}

/// The messages that a processor handles, in the order of their numbers.
///
/// Refusals: 1 to 8, 11, 16 to 18, 20 and 21.
pub fn part_messages(encoded: &[u8], route: Route, processor: u32) -> Result<Vec<PartRow>, Refusal> {
    let mut out = vec![0; ROW_WORDS * part_sizes(encoded, route, processor)?.messages as usize];
    part_messages_words(encoded, route, processor, &mut out)?;
    let row = |words: &[u32]| PartRow {
        message: words[0],
        line: Message {
            sending_tile: words[1],
            taking_tile: words[2],
            sending_processor: words[3],
            taking_processor: words[4],
            words: words[5],
        },
        place: words[6],
    };
    Ok(out.chunks_exact(ROW_WORDS).map(row).collect())
}

/// The words that a source of all cells has at the cells of a processor's tiles: what [`part_turn`] is lent.
///
/// Refusals: 1 to 9, 11, 16 to 18 and 20.
pub fn part_source(encoded: &[u8], source: &[u32], processor: u32) -> Result<Vec<u32>, Refusal> {
    part_sizes(encoded, Route::Direct, processor)?;
    let owners = owners(encoded)?;
    if owners.len() != source.len() {
        return Err(Refusal::Area);
    }
    Ok(source.iter().zip(owners).filter(|&(_, owner)| owner == Some(processor)).map(|(&word, _)| word).collect())
}

/// One processor of a run on processors that share no memory, with memory for its own part alone; a transport carries its messages.
///
/// Where every message that one posts arrives at its taker, sooner or later and perhaps more than once, each processor finishes, and
/// the grid that all have collected into is that of the sequential sweep.
///
/// ```
/// use rolwyddac::{part_source, Fields, PartBoard, Refusal, Route};
///
/// # fn main() -> Result<(), Refusal> {
/// // a line of four cells in tiles of two on two processors; each cell adds the one before it
/// let recipe = Fields::new().dimension(4, 2, 2).dimension(1, 1, 0).distance(&[1, 0], 1).close(0, 0)?;
/// let source = [0, 1].map(|processor| part_source(&recipe, &[1; 4], processor).unwrap());
/// let mut first = PartBoard::start(&recipe, Route::Direct, &source[0], 0)?;
/// let mut second = PartBoard::start(&recipe, Route::Direct, &source[1], 1)?;
/// while first.turn().is_ok() {}
/// assert_eq!(second.turn(), Err(Refusal::Waiting));
/// let (taker, words) = first.post(0)?;
/// assert_eq!((taker, &words[..]), (1, &[2][..]));
/// second.arrive(0, &words)?;
/// while second.turn().is_ok() {}
/// let mut grid = [0; 4];
/// second.collect(&mut grid)?;
/// first.collect(&mut grid)?;
/// assert_eq!(grid, [1, 2, 3, 4]);
/// # Ok(())
/// # }
/// ```
#[derive(Clone, Debug)]
pub struct PartBoard<'a> {
    encoded: &'a [u8],
    route: Route,
    source: &'a [u32],
    processor: u32,
    rows: Vec<PartRow>,
    areas: PartAreas,
}

impl<'a> PartBoard<'a> {
    /// Sizes the areas and makes a fresh start. The source has a word for each cell of the processor's tiles ([`part_source`]).
    ///
    /// Refusals: 1 to 9, 11, 16 to 18, 20 and 21.
    pub fn start(encoded: &'a [u8], route: Route, source: &'a [u32], processor: u32) -> Result<PartBoard<'a>, Refusal> {
        let sizes = part_sizes(encoded, route, processor)?;
        if source.len() != sizes.source as usize {
            return Err(Refusal::Area);
        }
        let mut areas = PartAreas::sized(&sizes);
        let PartAreas { memory, mail, progress, marks } = &mut areas;
        part_fresh(encoded, route, memory, mail, progress, marks, processor)?;
        Ok(PartBoard { encoded, route, source, processor, rows: part_messages(encoded, route, processor)?, areas })
    }

    /// The areas as the last call left them.
    pub fn areas(&self) -> &PartAreas {
        &self.areas
    }

    /// The messages that the processor handles, in the order of their numbers.
    pub fn rows(&self) -> &[PartRow] {
        &self.rows
    }

    /// Gives the processor a turn.
    ///
    /// Refusals: 12 and 13.
    pub fn turn(&mut self) -> Result<(), Refusal> {
        let PartAreas { memory, mail, progress, marks } = &mut self.areas;
        part_turn(self.encoded, self.route, self.source, memory, mail, progress, marks, self.processor)
    }

    fn marked(&self) -> impl Iterator<Item = (&PartRow, u8)> {
        self.rows.iter().zip(self.areas.marks.iter().copied())
    }

    /// The first tile of the processor that has a message still to come, and the messages that it then waits for: where a turn was
    /// refused with 12 it stands at this tile. None where all have come.
    pub fn awaited(&self) -> Option<Awaited> {
        let missing = |&(row, mark): &(&PartRow, u8)| row.line.taking_processor == self.processor && mark == UNSENT;
        let tile = self.marked().filter(missing).map(|(row, _)| row.line.taking_tile).min()?;
        let at_tile = self.marked().filter(missing).filter(|(row, _)| row.line.taking_tile == tile);
        Some(Awaited { tile, messages: at_tile.map(|(row, _)| row.message).collect() })
    }

    /// The messages that are sent and not posted yet, by number.
    pub fn in_flight(&self) -> Vec<u32> {
        self.marked().filter(|&(_, mark)| mark == IN_FLIGHT).map(|(row, _)| row.message).collect()
    }

    /// Posts a message in flight: gives the processor that takes it, and the words to carry there.
    ///
    /// Refusals: 11 and 14.
    pub fn post(&mut self, message: u32) -> Result<(u32, Vec<u32>), Refusal> {
        let PartAreas { memory, mail, progress, marks } = &mut self.areas;
        part_post(self.encoded, self.route, memory, mail, progress, marks, self.processor, message)?;
        let posted = self.rows.iter().find(|row| row.message == message);
        let &PartRow { line, place, .. } = posted.expect("a message that has a mark here is handled here");
        let start = place as usize;
        Ok((line.taking_processor, self.areas.mail[start..start + line.words as usize].to_vec()))
    }

    /// A message arrives that another processor posted.
    ///
    /// Refusals: 9, 11 and 14.
    pub fn arrive(&mut self, message: u32, words: &[u32]) -> Result<(), Refusal> {
        let PartAreas { memory, mail, progress, marks } = &mut self.areas;
        part_arrive(self.encoded, self.route, memory, mail, progress, marks, self.processor, message, words)
    }

    /// Puts the processor's part into a grid of all cells, once it has finished; words of other processors' cells are as before.
    ///
    /// Refusals: 9 and 15.
    pub fn collect(&self, grid: &mut [u32]) -> Result<(), Refusal> {
        let PartAreas { memory, progress, .. } = &self.areas;
        part_collect(self.encoded, self.route, memory, progress, self.processor, grid)
    }
}

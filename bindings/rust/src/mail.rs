//! What a transport needs where processors share no memory, in handy forms.

use crate::{
    awaited_words, deliver, fresh, messages_words, owners_words, receive, send, summary, take_in, turn, Areas, Message,
    Progress, Received, Refusal, Route, LONGEST_PACKET,
};

const ROW_WORDS: usize = 6;

/// One message's row: its line, and its place in the buffer.
#[derive(Clone, Copy, Debug, PartialEq, Eq)]
pub struct Row {
    /// Its tiles, their processors and its words.
    pub line: Message,
    /// Where its words begin in the buffer.
    pub offset: u32,
}

/// What a processor waits for.
#[derive(Clone, Debug, PartialEq, Eq)]
pub struct Awaited {
    /// The tile at which it stands.
    pub tile: u32,
    /// The messages due there that are not delivered, in the order of their numbers; none where the processor can go on.
    pub messages: Vec<u32>,
}

/// All messages of a recipe's plan on a route, in the order of their numbers.
///
/// Refusals: 1 to 8, 16 to 18, 20 and 21.
pub fn messages(encoded: &[u8], route: Route) -> Result<Vec<Row>, Refusal> {
    let mut out = vec![0; ROW_WORDS * summary(encoded, route)?.messages as usize];
    messages_words(encoded, route, &mut out)?;
    let row = |words: &[u32]| Row {
        line: Message {
            sending_tile: words[0],
            taking_tile: words[1],
            sending_processor: words[2],
            taking_processor: words[3],
            words: words[4],
        },
        offset: words[5],
    };
    Ok(out.chunks_exact(ROW_WORDS).map(row).collect())
}

/// The processor of each cell's tile; none for a cell outside the shape, which is in no tile.
///
/// Refusals: 1 to 8, 16 to 18 and 20.
pub fn owners(encoded: &[u8]) -> Result<Vec<Option<u32>>, Refusal> {
    let plan = summary(encoded, Route::Direct)?;
    let mut out = vec![0; plan.cells];
    owners_words(encoded, &mut out)?;
    Ok(out.into_iter().map(|owner| (owner as usize != plan.processors).then_some(owner)).collect())
}

/// What a processor waits for: see [`awaited_words`].
///
/// Refusals: 1 to 11, 13, 16 to 18, 20 and 21.
pub fn awaited(
    encoded: &[u8], route: Route, progress: &[Progress], status: &[u8], processor: u32,
) -> Result<Awaited, Refusal> {
    let mut marks = vec![0; status.len()];
    let tile = awaited_words(encoded, route, progress, status, processor, &mut marks)?;
    let messages = (0..).zip(&marks).filter(|&(_, &mark)| mark == 1).map(|(m, _)| m).collect();
    Ok(Awaited { tile, messages })
}

/// One processor of a run on processors that share no memory: it has all areas to itself, and a transport carries its messages.
///
/// Where every message that one posts is taken in by its taker, sooner or later and perhaps more than once, each processor
/// finishes, and its memory has the cells of its tiles as the sequential sweep has them.
#[derive(Clone, Debug)]
pub struct Board<'a> {
    encoded: &'a [u8],
    route: Route,
    source: &'a [u32],
    processor: u32,
    rows: Vec<Row>,
    areas: Areas,
    /// what came so far of each message, at its words' places in the buffer, and which of its chunks
    parts: Vec<u32>,
    masks: Vec<u64>,
}

impl<'a> Board<'a> {
    /// Sizes the areas and makes a fresh start.
    ///
    /// Refusals: 1 to 9, 11, 16 to 18, 20 and 21.
    pub fn start(encoded: &'a [u8], route: Route, source: &'a [u32], processor: u32) -> Result<Board<'a>, Refusal> {
        let plan = summary(encoded, route)?;
        let mut areas = Areas::sized(&plan);
        let Areas { memories, buffer, progress, status } = &mut areas;
        fresh(encoded, route, source, memories, buffer, progress, status)?;
        if processor as usize >= plan.processors {
            return Err(Refusal::NoSuch);
        }
        let (parts, masks) = (vec![0; areas.buffer.len()], vec![0; areas.status.len()]);
        Ok(Board { encoded, route, source, processor, rows: messages(encoded, route)?, areas, parts, masks })
    }

    /// The areas as the last call left them.
    pub fn areas(&self) -> &Areas {
        &self.areas
    }

    /// The processor's own part of its memories, one word a cell.
    pub fn memory(&self) -> &[u32] {
        let cells = self.source.len();
        let start = self.processor as usize * cells;
        &self.areas.memories[start..start + cells]
    }

    /// Gives the processor a turn.
    ///
    /// Refusals: 12 and 13.
    pub fn turn(&mut self) -> Result<(), Refusal> {
        let Areas { memories, buffer, progress, status } = &mut self.areas;
        turn(self.encoded, self.route, self.source, memories, buffer, progress, status, self.processor)
    }

    /// What the processor waits for.
    ///
    /// Refusals: 13.
    pub fn awaited(&self) -> Result<Awaited, Refusal> {
        awaited(self.encoded, self.route, &self.areas.progress, &self.areas.status, self.processor)
    }

    /// The messages that are sent and not posted yet, by number.
    pub fn in_flight(&self) -> Vec<u32> {
        (0..).zip(&self.areas.status).filter(|&(_, &status)| status == 1).map(|(m, _)| m).collect()
    }

    /// Posts a message in flight: gives the processor that takes it, and the words to carry there.
    ///
    /// Refusals: 11 and 14.
    pub fn post(&mut self, message: u32) -> Result<(u32, Vec<u32>), Refusal> {
        let Areas { memories, buffer, progress, status } = &mut self.areas;
        deliver(self.encoded, self.route, self.source, memories, buffer, progress, status, message)?;
        let Row { line, offset } = self.rows[message as usize];
        let start = offset as usize;
        Ok((line.taking_processor, self.areas.buffer[start..start + line.words as usize].to_vec()))
    }

    /// Takes a message in that another processor posted.
    ///
    /// Refusals: 9, 11 and 14.
    pub fn take_in(&mut self, message: u32, words: &[u32]) -> Result<(), Refusal> {
        let Areas { memories, buffer, progress, status } = &mut self.areas;
        take_in(
            self.encoded,
            self.route,
            self.source,
            memories,
            buffer,
            progress,
            status,
            self.processor,
            message,
            words,
        )
    }

    /// The packet of a chunk of a message that this processor has posted, for this run and life: the first time, and whenever its
    /// taker asks again.
    ///
    /// Refusals: 11 and 14.
    pub fn packet(&self, run: u64, life: u64, message: u32, chunk: u32) -> Result<Vec<u8>, Refusal> {
        let mut space = vec![0; LONGEST_PACKET];
        let Areas { buffer, status, .. } = &self.areas;
        let length =
            send(self.encoded, self.route, run, life, buffer, status, self.processor, message, chunk, &mut space)?;
        space.truncate(length as usize);
        Ok(space)
    }

    /// Takes bytes as they came: a chunk to what came of its message, and the message in once it is whole.
    ///
    /// Refusals: 11, 14, 26 and 27.
    pub fn receive(&mut self, run: u64, packet: &[u8]) -> Result<Received, Refusal> {
        let Areas { memories, buffer, progress, status } = &mut self.areas;
        receive(
            self.encoded,
            self.route,
            run,
            self.source,
            memories,
            buffer,
            progress,
            status,
            self.processor,
            packet,
            &mut self.parts,
            &mut self.masks,
        )
    }
}

//! The areas of a run with their right sizes, and a run that owns them.

use crate::{
    collect, deliver, fresh, opens, rounds, summary, turn, turn_at, Opening, Progress, Refusal, Route, Summary,
};

/// The four areas that a run changes, with the sizes a plan asks for.
#[derive(Clone, Debug, PartialEq, Eq)]
pub struct Areas {
    /// One word a cell for each processor, processor after processor.
    pub memories: Vec<u32>,
    /// One word a message word.
    pub buffer: Vec<u32>,
    /// One record a processor.
    pub progress: Vec<Progress>,
    /// One byte a message: 0 unsent, 1 in flight, 2 delivered, 3 taken.
    pub status: Vec<u8>,
}

impl Areas {
    /// Areas of the sizes that a plan asks for, all zero.
    pub fn sized(plan: &Summary) -> Areas {
        Areas {
            memories: vec![0; plan.processors * plan.cells],
            buffer: vec![0; plan.words as usize],
            progress: vec![Progress::default(); plan.processors],
            status: vec![0; plan.messages as usize],
        }
    }
}

/// A run of one recipe by one route over one source: a fresh start, then any turns and deliveries.
///
/// All calls are given the same recipe, route and source, and the areas as the last left them, so the engine's theorem about
/// runs applies: whatever the order, the grid that [`Run::collect`] gives is that of the sequential sweep.
#[derive(Clone, Debug)]
pub struct Run<'a> {
    encoded: &'a [u8],
    route: Route,
    source: &'a [u32],
    plan: Summary,
    areas: Areas,
}

impl<'a> Run<'a> {
    /// Sizes the areas and makes a fresh start.
    ///
    /// Refusals: 1 to 9, 16 to 18, 20 and 21.
    pub fn start(encoded: &'a [u8], route: Route, source: &'a [u32]) -> Result<Run<'a>, Refusal> {
        let plan = summary(encoded, route)?;
        let mut areas = Areas::sized(&plan);
        let Areas { memories, buffer, progress, status } = &mut areas;
        fresh(encoded, route, source, memories, buffer, progress, status)?;
        Ok(Run { encoded, route, source, plan, areas })
    }

    /// A whole run by rounds, on the direct route: sizes the areas, makes a fresh start and goes on to the end, in one call.
    /// Gives the run, to be collected, and the rounds.
    ///
    /// In a round every processor that could gather at the round's start does its whole tile, then each message in flight is
    /// delivered. No other plan of whole tiles has fewer rounds. [`rounds_of`](crate::rounds_of) tells each tile's.
    ///
    /// Refusals: 1 to 9, 16 to 18 and 20.
    ///
    /// ```
    /// # fn main() -> Result<(), rolwyddac::Refusal> {
    /// let recipe = rolwyddac::Fields::new().dimension(4, 2, 2).dimension(1, 1, 0).distance(&[1, 0], 1).close(0, 0)?;
    /// let (run, rounds) = rolwyddac::Run::by_rounds(&recipe, &[1; 4])?;
    /// assert_eq!((run.collect()?, rounds), (vec![1, 2, 3, 4], 2));
    /// # Ok(())
    /// # }
    /// ```
    pub fn by_rounds(encoded: &'a [u8], source: &'a [u32]) -> Result<(Run<'a>, u32), Refusal> {
        let plan = summary(encoded, Route::Direct)?;
        let mut areas = Areas::sized(&plan);
        let Areas { memories, buffer, progress, status } = &mut areas;
        let rounds = rounds(encoded, source, memories, buffer, progress, status)?;
        Ok((Run { encoded, route: Route::Direct, source, plan, areas }, rounds))
    }

    /// Goes on from areas that an earlier run left, as [`Run::into_areas`] gave them, with the same recipe, route and source.
    ///
    /// Their lengths and their fitness are tested; that a run of these left them is the caller's to know: the engine's
    /// theorem speaks of no others.
    ///
    /// Refusals: 1 to 10, 16 to 18, 20 and 21.
    pub fn resume(encoded: &'a [u8], route: Route, source: &'a [u32], areas: Areas) -> Result<Run<'a>, Refusal> {
        let plan = summary(encoded, route)?;
        let mut run = Run { encoded, route, source, plan, areas };
        // A delivery tests lengths and fitness before the message's number, and no plan has as many messages as this.
        match run.deliver(u32::MAX) {
            Err(Refusal::NoSuch) => Ok(run),
            Err(refusal) => Err(refusal),
            Ok(()) => unreachable!("no plan has message {}", u32::MAX),
        }
    }

    /// The areas as the last call left them, to be kept; [`Run::resume`] goes on from there.
    pub fn into_areas(self) -> Areas {
        self.areas
    }

    /// The plan's totals.
    pub fn plan(&self) -> &Summary {
        &self.plan
    }

    /// The areas as the last call left them.
    pub fn areas(&self) -> &Areas {
        &self.areas
    }

    /// Gives one processor a turn.
    ///
    /// Refusals: 11, 12 and 13.
    pub fn turn(&mut self, processor: u32) -> Result<(), Refusal> {
        let Areas { memories, buffer, progress, status } = &mut self.areas;
        turn(self.encoded, self.route, self.source, memories, buffer, progress, status, processor)
    }

    /// Gives one processor a turn at a minute of the week, by a table of hours.
    ///
    /// Refusals: 9, 11 to 13, 24 and 25.
    pub fn turn_at(&mut self, hours: &[u32], minute: u32, processor: u32) -> Result<(), Refusal> {
        let Areas { memories, buffer, progress, status } = &mut self.areas;
        turn_at(self.encoded, self.route, self.source, memories, buffer, progress, status, hours, minute, processor)
    }

    /// When a processor next opens.
    ///
    /// Refusals: 9, 11 and 25.
    pub fn opens(&self, hours: &[u32], minute: u32, processor: u32) -> Result<Opening, Refusal> {
        opens(self.encoded, hours, minute, processor)
    }

    /// Delivers one message.
    ///
    /// Refusals: 11 and 14.
    pub fn deliver(&mut self, message: u32) -> Result<(), Refusal> {
        let Areas { memories, buffer, progress, status } = &mut self.areas;
        deliver(self.encoded, self.route, self.source, memories, buffer, progress, status, message)
    }

    /// The messages in flight, by number.
    pub fn in_flight(&self) -> Vec<u32> {
        let messages = 0..self.plan.messages;
        messages.filter(|&message| self.areas.status[message as usize] == 1).collect()
    }

    /// Goes on to the end: processors take turns in rising order, and each message in flight is delivered when no
    /// turn can be taken. Gives the number of turns and deliveries that were done.
    pub fn finish(&mut self) -> Result<u32, Refusal> {
        self.finish_telling(|_| ())
    }

    /// The same; `tell` is given the number of turns and deliveries done so far, after each.
    pub fn finish_telling(&mut self, mut tell: impl FnMut(u32)) -> Result<u32, Refusal> {
        let mut steps = 0;
        loop {
            let before = steps;
            for processor in 0..self.plan.processors as u32 {
                loop {
                    match self.turn(processor) {
                        Ok(()) => {
                            steps += 1;
                            tell(steps);
                        }
                        Err(Refusal::Waiting | Refusal::Finished) => break,
                        Err(refusal) => return Err(refusal),
                    }
                }
            }
            for message in self.in_flight() {
                self.deliver(message)?;
                steps += 1;
                tell(steps);
            }
            if steps == before {
                return Ok(steps);
            }
        }
    }

    /// The grid, once all processors have finished.
    ///
    /// Refusal: 15.
    pub fn collect(&self) -> Result<Vec<u32>, Refusal> {
        let mut grid = vec![0; self.plan.cells];
        let Areas { memories, buffer, progress, status } = &self.areas;
        collect(self.encoded, self.route, self.source, memories, buffer, progress, status, &mut grid)?;
        Ok(grid)
    }
}

//! A rig that two offices share, with the areas of both.

use crate::{
    fresh_both, opens, summary, tenant_collect, tenant_deliver, tenant_turn, tenant_turn_at, view, Areas, Opening,
    Progress, Refusal, Route, Summary,
};

/// A run of two offices with one recipe and one route, each over its own source, on the same processors: a fresh start of
/// both, then any turns and deliveries of either.
///
/// All calls are given the same recipe and route and each its office's source, and the areas as the last left them, so the
/// engine's theorem about such runs applies: whatever the order of both offices' calls, the grid that [`Rig::collect`] gives for
/// an office is that of the sequential sweep of its source. Offices are numbered 0 and 1; another number is
/// [`Refusal::NoSuch`].
#[derive(Clone, Debug)]
pub struct Rig<'a> {
    encoded: &'a [u8],
    route: Route,
    sources: [&'a [u32]; 2],
    plan: Summary,
    areas: [Areas; 2],
    engaged: Vec<u32>,
}

/// Which of two an office's number names; any number but 0 names the second, and the engine refuses those above 1.
fn place(office: u32) -> usize {
    usize::from(office != 0)
}

impl<'a> Rig<'a> {
    /// Sizes the areas and makes a fresh start of both offices.
    ///
    /// Refusals: 1 to 9, 16 to 18, 20 and 21.
    pub fn start(encoded: &'a [u8], route: Route, sources: [&'a [u32]; 2]) -> Result<Rig<'a>, Refusal> {
        let plan = summary(encoded, route)?;
        let mut areas = [Areas::sized(&plan), Areas::sized(&plan)];
        let mut engaged = vec![0; plan.processors];
        let [a, b] = &mut areas;
        fresh_both(
            encoded,
            route,
            sources[0],
            &mut a.memories,
            &mut a.buffer,
            &mut a.progress,
            &mut a.status,
            sources[1],
            &mut b.memories,
            &mut b.buffer,
            &mut b.progress,
            &mut b.status,
            &mut engaged,
        )?;
        Ok(Rig { encoded, route, sources, plan, areas, engaged })
    }

    /// The plan's totals, which are each office's.
    pub fn plan(&self) -> &Summary {
        &self.plan
    }

    /// The areas of each office as the last call left them.
    pub fn areas(&self) -> &[Areas; 2] {
        &self.areas
    }

    /// One word a processor: the office that holds it, or 2 for none.
    pub fn engaged(&self) -> &[u32] {
        &self.engaged
    }

    /// An office's source, its areas, the engaged words and the other's records.
    fn lent(&mut self, office: u32) -> (&'a [u32], &mut Areas, &mut [u32], &[Progress]) {
        let [first, second] = &mut self.areas;
        let (own, other) = if office == 0 { (first, second) } else { (second, first) };
        (self.sources[place(office)], own, &mut self.engaged, &other.progress)
    }

    /// Gives one processor a turn for an office.
    ///
    /// Refusals: 11, 12, 13 and 19.
    pub fn turn(&mut self, office: u32, processor: u32) -> Result<(), Refusal> {
        let (encoded, route) = (self.encoded, self.route);
        let (source, Areas { memories, buffer, progress, status }, engaged, other) = self.lent(office);
        tenant_turn(encoded, route, source, memories, buffer, progress, status, engaged, other, office, processor)
    }

    /// Gives one processor a turn for an office at a minute of the week, by a table of hours.
    ///
    /// Refusals: 9, 11 to 13, 19, 24 and 25.
    pub fn turn_at(&mut self, hours: &[u32], minute: u32, office: u32, processor: u32) -> Result<(), Refusal> {
        let (e, r) = (self.encoded, self.route);
        let (source, Areas { memories, buffer, progress, status }, engaged, other) = self.lent(office);
        tenant_turn_at(
            e, r, source, memories, buffer, progress, status, engaged, other, hours, minute, office, processor,
        )
    }

    /// When a processor next opens, the same for either office.
    ///
    /// Refusals: 9, 11 and 25.
    pub fn opens(&self, hours: &[u32], minute: u32, processor: u32) -> Result<Opening, Refusal> {
        opens(self.encoded, hours, minute, processor)
    }

    /// Delivers one message of an office.
    ///
    /// Refusals: 11 and 14.
    pub fn deliver(&mut self, office: u32, message: u32) -> Result<(), Refusal> {
        let (encoded, route) = (self.encoded, self.route);
        let (source, Areas { memories, buffer, progress, status }, engaged, other) = self.lent(office);
        tenant_deliver(encoded, route, source, memories, buffer, progress, status, engaged, other, office, message)
    }

    /// An office's messages in flight, by number.
    pub fn in_flight(&self, office: u32) -> Vec<u32> {
        let status = &self.areas[place(office)].status;
        (0..self.plan.messages).filter(|&message| status[message as usize] == 1).collect()
    }

    /// Goes on to the end: on each processor in rising order the offices take turns, and each message in flight is delivered
    /// when no turn can be taken. Gives the number of each office's turns and deliveries that were done.
    pub fn finish(&mut self) -> Result<[u32; 2], Refusal> {
        let mut steps = [0; 2];
        loop {
            let before = steps;
            for processor in 0..self.plan.processors as u32 {
                for office in [0, 1] {
                    loop {
                        match self.turn(office, processor) {
                            Ok(()) => steps[place(office)] += 1,
                            Err(Refusal::Waiting | Refusal::Finished | Refusal::Engaged) => break,
                            Err(refusal) => return Err(refusal),
                        }
                    }
                }
            }
            for office in [0, 1] {
                for message in self.in_flight(office) {
                    self.deliver(office, message)?;
                    steps[place(office)] += 1;
                }
            }
            if steps == before {
                return Ok(steps);
            }
        }
    }

    /// An office's grid, once all processors have finished for it.
    ///
    /// Refusals: 11 and 15.
    pub fn collect(&self, office: u32) -> Result<Vec<u32>, Refusal> {
        let mut grid = vec![0; self.plan.cells];
        let Areas { memories, buffer, progress, status } = &self.areas[place(office)];
        let other = &self.areas[1 - place(office)].progress;
        tenant_collect(
            self.encoded,
            self.route,
            self.sources[place(office)],
            memories,
            buffer,
            progress,
            status,
            &self.engaged,
            other,
            office,
            &mut grid,
        )?;
        Ok(grid)
    }

    /// A processor's memory of an office, one word a cell.
    ///
    /// Refusal: 11.
    pub fn view(&self, office: u32, processor: u32) -> Result<&[u32], Refusal> {
        let [first, second] = &self.areas;
        view(self.encoded, &first.memories, &second.memories, office, processor)
    }
}

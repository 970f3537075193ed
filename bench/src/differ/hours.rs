//! Trials of the hours when processors may run (W-212): any states at any minute, when they open, and whole runs.

use super::events::{some_event, some_minute, some_table, take, turn_event, Event, Given};
use super::{any_state, make_unfit, offices, other_length, some_number, words, wrong_lengths, Outcome, Pair};
use crate::engine::{Engine, Request, OPENS_WORDS};
use crate::model::Plan;
use crate::rng::Rng;

impl Pair<'_> {
    /// an event where there is one office
    pub fn event(&mut self, event: Event) -> Outcome<u32> {
        let Event::TurnAt(processor, minute) = event else {
            return match event {
                Event::Deliver(message) => self.deliver(message),
                Event::Turn(processor) | Event::TurnAt(processor, _) => self.turn(processor),
            };
        };
        let given = Given { encoded: &self.encoded, route: self.route, hours: &self.hours };
        let theirs = take(self.engine, given, &mut self.theirs, event);
        let ours = take(self.model, given, &mut self.ours, event);
        let route = self.route;
        self.compare("turn_at", &|| format!("{route:?} of {processor} at minute {minute}"), (theirs, ours), (&[], &[]))
    }

    fn opens(&mut self, minute: u32, processor: u32) -> Outcome<u32> {
        let (mut theirs, mut ours) = ([7; OPENS_WORDS], [8; OPENS_WORDS]);
        let numbers = (
            self.engine.opens(&self.encoded, &self.hours, minute, processor, &mut theirs),
            self.model.opens(&self.encoded, &self.hours, minute, processor, &mut ours),
        );
        self.compare("opens", &|| format!("of {processor} at minute {minute}"), numbers, (&theirs, &ours))
    }
}

/// a table that is mostly sound and of the right length
fn any_table(rng: &mut Rng, processors: usize) -> Vec<u32> {
    let mut table = some_table(rng, processors, false);
    if rng.one_in(4) {
        let window = 2 * rng.below(table.len() / 2);
        let some = rng.between(1, 10_079) as u32;
        let pair = rng.of(&[
            [some, 0],
            [some, some],
            [some, some - 1],
            [some, 10_080],
            [some, 10_081],
            [0, some],
            [0, 10_081],
            [10_080, 10_081],
            [10_080, 10_080],
            [0, u32::MAX],
            [u32::MAX, 0],
            [u32::MAX, u32::MAX],
        ]);
        table[window..window + 2].copy_from_slice(&pair);
    }
    if rng.one_in(10) {
        table.resize(other_length(rng, table.len()), 0);
    }
    table
}

/// one question when a processor opens
pub fn question(pair: &mut Pair, rng: &mut Rng, processors: usize) -> Outcome<u32> {
    let processor = some_number(rng, processors);
    let minute = some_minute(rng, &pair.hours, processor);
    pair.opens(minute, processor)
}

/// any states, or runs
pub fn any(pair: &mut Pair, rng: &mut Rng, plan: &Plan) -> Outcome<()> {
    match rng.below(4) {
        0 | 1 => states(pair, rng, plan),
        2 => run(pair, rng, plan),
        _ if pair.engine.has(Request::Offices) => {
            pair.hours = some_table(rng, plan.processors, true);
            offices::run(pair, rng, plan)
        }
        _ => run(pair, rng, plan),
    }
}

fn states(pair: &mut Pair, rng: &mut Rng, plan: &Plan) -> Outcome<()> {
    for _ in 0..rng.between(2, 6) {
        pair.hours = any_table(rng, plan.processors);
        for _ in 0..2 {
            question(pair, rng, plan.processors)?;
        }
        let mut areas = any_state(rng, plan);
        if rng.one_in(6) {
            make_unfit(rng, plan, &mut areas);
        }
        if rng.one_in(12) {
            wrong_lengths(rng, &mut areas);
        }
        pair.lend(areas);
        for _ in 0..3 {
            let processor = some_number(rng, plan.processors);
            let event = turn_event(rng, &pair.hours, processor);
            pair.event(event)?;
        }
        if pair.engine.has(Request::Offices) {
            let rig = offices::some_rig(rng, plan);
            pair.lend_rig(rig);
            for _ in 0..3 {
                offices::one_call(pair, rng)?;
            }
        }
    }
    Ok(())
}

/// a run of one office to its end, every turn at some minute; the grid is the sweep's
fn run(pair: &mut Pair, rng: &mut Rng, plan: &Plan) -> Outcome<()> {
    pair.hours = some_table(rng, plan.processors, true);
    let areas = any_state(rng, plan);
    pair.lend(areas);
    pair.fresh()?;
    let mut steps = 0;
    while steps < plan.steps() {
        let event = some_event(rng, plan, &pair.ours, &pair.hours);
        steps += usize::from(pair.event(event)? == 0);
    }
    let mut grid = words(rng, plan.cells);
    let number = pair.collect(&mut grid)?;
    let mut swept = words(rng, plan.cells);
    let source = pair.ours.source.clone();
    pair.sweep(&source, &mut swept)?;
    if number != 0 || grid != swept {
        return Err(("run with hours".into(), format!("collecting gave {number}, and not the words of the sweep")));
    }
    pair.tally.runs += 1;
    Ok(())
}

/// calls with a table for a recipe that may be damaged, over the areas as they are
pub fn damaged(pair: &mut Pair, rng: &mut Rng) -> Outcome<()> {
    let plan = pair.model.plan(&pair.encoded, crate::engine::Route::Direct).ok();
    let processors = plan.map_or(2, |plan| plan.processors);
    pair.hours = some_table(rng, processors, false);
    question(pair, rng, processors)?;
    let processor = some_number(rng, processors);
    let event = turn_event(rng, &pair.hours, processor);
    pair.event(event)?;
    pair.hours.clear();
    Ok(())
}

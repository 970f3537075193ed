//! Events of a run, a turn or a delivery each, with the hours of processors (W-212) or without.

use super::some_number;
use crate::engine::{Areas, Engine, Route, HOURS_WORDS};
use crate::model::Plan;
use crate::rng::Rng;

const WEEK: u32 = 10_080;

/// what every event of a run is given; the table of hours is empty where there is none
#[derive(Clone, Copy)]
pub struct Given<'a> {
    pub encoded: &'a [u8],
    pub route: Route,
    pub hours: &'a [u32],
}

#[derive(Clone, Copy, Debug, PartialEq, Eq)]
pub enum Event {
    Turn(u32),
    /// processor and minute
    TurnAt(u32, u32),
    Deliver(u32),
}

/// the event where there is one office
pub fn take(engine: &dyn Engine, Given { encoded, route, hours }: Given, areas: &mut Areas, event: Event) -> u32 {
    match event {
        Event::Turn(processor) => engine.turn(encoded, route, areas, processor),
        Event::TurnAt(processor, minute) => engine.turn_at(encoded, route, areas, hours, minute, processor),
        Event::Deliver(message) => engine.deliver(encoded, route, areas, message),
    }
}

/// a turn, at a minute if there are hours
pub fn turn_event(rng: &mut Rng, hours: &[u32], processor: u32) -> Event {
    if hours.is_empty() {
        Event::Turn(processor)
    } else {
        Event::TurnAt(processor, some_minute(rng, hours, processor))
    }
}

/// an event that is mostly not refused
pub fn some_event(rng: &mut Rng, plan: &Plan, areas: &Areas, hours: &[u32]) -> Event {
    let flying: Vec<usize> = (0..areas.status.len()).filter(|&message| areas.status[message] == 1).collect();
    if !flying.is_empty() && rng.one_in(2) {
        Event::Deliver(rng.of(&flying) as u32)
    } else if rng.one_in(12) {
        Event::Deliver(some_number(rng, plan.messages.len()))
    } else {
        let processor = some_number(rng, plan.processors);
        turn_event(rng, hours, processor)
    }
}

/// a minute, mostly about the ends of one of the processor's windows, seldom none of the week
pub fn some_minute(rng: &mut Rng, hours: &[u32], processor: u32) -> u32 {
    let windows = hours.chunks_exact(2).skip(processor as usize * HOURS_WORDS / 2).take(HOURS_WORDS / 2);
    let windows: Vec<&[u32]> = windows.filter(|window| window[0] < window[1]).collect();
    match rng.below(12) {
        0 => rng.of(&[0, WEEK - 1]),
        1 => rng.below(WEEK as usize) as u32,
        2 if rng.one_in(8) => rng.of(&[WEEK, WEEK + 1, u32::MAX]),
        place if windows.is_empty() => 720 * place as u32,
        place => {
            let window = rng.of(&windows);
            match place {
                2 => window[0].saturating_sub(1),
                3 => window[1].min(WEEK - 1),
                4 => window[1] - 1,
                _ => window[0],
            }
        }
    }
}

/// A table in which every processor is open at some minute, if it is to be so; windows are few or many, one minute or
/// the whole week, side by side or one in another.
pub fn some_table(rng: &mut Rng, processors: usize, all_open: bool) -> Vec<u32> {
    let mut table = vec![0; processors * HOURS_WORDS];
    for own in table.chunks_exact_mut(HOURS_WORDS) {
        let count = rng.of(&[0, 1, 1, 2, 5, 14]).max(usize::from(all_open));
        let first = rng.below(HOURS_WORDS / 2 - count + 1);
        let mut last = 0;
        for window in own.chunks_exact_mut(2).skip(first).take(count) {
            let open = match rng.below(6) {
                0 => 0,
                1 => last % WEEK,
                _ => rng.below(WEEK as usize) as u32,
            };
            last = match rng.below(4) {
                0 => open + 1,
                1 => WEEK,
                _ => rng.between(open as usize + 1, WEEK as usize) as u32,
            };
            window.copy_from_slice(&[open, last]);
        }
    }
    table
}

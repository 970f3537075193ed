//! Two events that can both be taken, in either order (W-214): along random runs, of one office or two, with hours or
//! without.

use super::events::{some_event, some_table, take, turn_event, Event, Given};
use super::{any_state, differing_areas, differing_rigs, offices, Outcome, Pair};
use crate::engine::{Areas, Engine, Request, Rig};
use crate::model::{Model, Plan};
use crate::rng::Rng;

/// the areas of a run: of one office, or of two
#[derive(Clone)]
pub enum Lent {
    One(Areas),
    Two(Rig),
}

impl Lent {
    /// an event, of one of the offices where there are two
    fn take(&mut self, engine: &dyn Engine, given: Given, (office, event): (usize, Event)) -> u32 {
        match self {
            Lent::One(areas) => take(engine, given, areas, event),
            Lent::Two(rig) => offices::take(engine, given, rig, office, office as u32, event),
        }
    }

    fn office(&self, office: usize) -> &Areas {
        match self {
            Lent::One(areas) => areas,
            Lent::Two(rig) => &rig.offices[office],
        }
    }

    fn offices(&self) -> usize {
        match self {
            Lent::One(_) => 1,
            Lent::Two(_) => 2,
        }
    }

    fn difference(&self, other: &Lent) -> Option<String> {
        match (self, other) {
            (Lent::One(a), Lent::One(b)) => differing_areas(a, b),
            (Lent::Two(a), Lent::Two(b)) => differing_rigs(a, b),
            _ => Some("other areas".into()),
        }
    }
}

/// every event that can be taken, a turn at some minute if there are hours
fn possible(rng: &mut Rng, given: Given, plan: &Plan, model: &Model, lent: &Lent) -> Vec<(usize, Event)> {
    let mut events = vec![];
    for office in 0..lent.offices() {
        for processor in 0..plan.processors as u32 {
            events.push((office, turn_event(rng, given.hours, processor)));
        }
        let in_flight = |&message: &u32| lent.office(office).status[message as usize] == 1;
        let messages = (0..plan.messages.len() as u32).filter(in_flight);
        events.extend(messages.map(|message| (office, Event::Deliver(message))));
    }
    events.retain(|&event| lent.clone().take(model, given, event) == 0);
    events
}

/// the processor of a turn
fn turned(event: Event) -> Option<u32> {
    match event {
        Event::Turn(processor) | Event::TurnAt(processor, _) => Some(processor),
        Event::Deliver(_) => None,
    }
}

/// What two events leave other words or are refused by, in the one order or the other.
fn parted(
    engine: &dyn Engine, given: Given, lent: &Lent, one: (usize, Event), other: (usize, Event),
) -> Option<String> {
    let (mut first, mut second) = (lent.clone(), lent.clone());
    let numbers = [one, other].map(|event| first.take(engine, given, event));
    let swapped = [other, one].map(|event| second.take(engine, given, event));
    if numbers != [0; 2] || swapped != [0; 2] {
        return Some(format!("{one:?} and {other:?} gave {numbers:?}, the other way round {swapped:?}"));
    }
    let detail = first.difference(&second)?;
    Some(format!("{one:?} and {other:?} part by their order: {detail}"))
}

/// a pair of the events that can be taken, tried both ways round; a pair that the request leaves out is passed over
pub fn swap(
    rng: &mut Rng, engine: &dyn Engine, model: &Model, given: Given, plan: &Plan, lent: &Lent,
) -> Result<bool, String> {
    let events = possible(rng, given, plan, model, lent);
    if events.len() < 2 {
        return Ok(false);
    }
    let (one, other) = (rng.of(&events), rng.of(&events));
    let same = turned(one.1).is_some() && turned(one.1) == turned(other.1);
    if one == other || (same && one.0 == other.0) {
        return Ok(false);
    }
    if let (true, Some(processor)) = (same, turned(one.1)) {
        let gathers = [0, 1].map(|office| lent.office(office).progress[processor as usize].stage == 0);
        return if gathers == [true; 2] { Ok(false) } else { Err(format!("{one:?} and {other:?} can be taken")) };
    }
    match parted(engine, given, lent, one, other) {
        Some(detail) => Err(detail),
        None => Ok(true),
    }
}

/// a run with two events swapped every now and then, in what the engine was lent
pub fn any(pair: &mut Pair, rng: &mut Rng, plan: &Plan) -> Outcome<()> {
    let two = pair.engine.has(Request::Offices) && rng.one_in(2);
    if pair.engine.has(Request::Hours) && rng.one_in(2) {
        pair.hours = some_table(rng, plan.processors, true);
    }
    if two {
        let rig = offices::any_rig(rng, plan);
        pair.lend_rig(rig);
        pair.fresh_both()?;
    } else {
        let areas = any_state(rng, plan);
        pair.lend(areas);
        pair.fresh()?;
    }
    for _ in 0..rng.between(10, 60) {
        let lent = if two { Lent::Two(pair.their_rig.clone()) } else { Lent::One(pair.theirs.clone()) };
        let given = Given { encoded: &pair.encoded, route: pair.route, hours: &pair.hours };
        match swap(rng, pair.engine, pair.model, given, plan, &lent) {
            Ok(tried) => pair.tally.swaps += u64::from(tried),
            Err(detail) => return Err(("two events".into(), detail)),
        }
        let office = if two { rng.below(2) } else { 0 };
        let event = some_event(rng, plan, lent.office(office), &pair.hours);
        if two {
            pair.office_event(office, office as u32, event)?;
        } else {
            pair.event(event)?;
        }
    }
    Ok(())
}

#[cfg(test)]
mod tests {
    use super::*;
    use crate::engine::{Progress, Route};
    use crate::naive::{Fault, Naive};
    use crate::recipe::{self, Limits};

    /// whether some pair of events parts by its order, by the engine alone: runs from a fresh start, no words compared
    fn is_found(engine: &dyn Engine) -> bool {
        let model = Model::default();
        (0..300).any(|seed| {
            let mut rng = Rng::new(seed);
            let encoded = recipe::random(&mut rng, Limits { cells: 30, words: 300 }).bytes();
            let Ok(plan) = model.plan(&encoded, Route::Direct) else { return false };
            let given = Given { encoded: &encoded, route: Route::Direct, hours: &[] };
            let areas = Areas {
                source: (0..plan.cells).map(|_| rng.word()).collect(),
                memories: vec![0; plan.cells * plan.processors],
                buffer: vec![0; plan.words],
                progress: vec![Progress::default(); plan.processors],
                status: vec![0; plan.messages.len()],
            };
            let mut lent = Lent::One(areas);
            (0..60).any(|_| {
                let found = swap(&mut rng, engine, &model, given, &plan, &lent).is_err();
                let event = some_event(&mut rng, &plan, lent.office(0), &[]);
                lent.take(engine, given, (0, event));
                found
            })
        })
    }

    #[test]
    fn order_tells() {
        assert!(!is_found(&Naive::default()));
        for fault in [Fault::MailInSendingOrder, Fault::EarlierDeliveredToo, Fault::GatherTakesAll] {
            assert!(is_found(&Naive::with(fault)), "{fault:?}");
        }
    }
}

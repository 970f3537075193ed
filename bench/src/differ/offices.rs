//! Trials of two offices on one rig (W-208): any states of both, runs of both mixed, and pairs of runs between which only
//! the other office differs.

use super::events::{some_event, turn_event, Event, Given};
use super::{any_state, make_unfit, other_length, some_number, some_route, words, wrong_lengths, Outcome, Pair};
use crate::engine::{Areas, Engine, Progress, Rig, VIEW_WORDS};
use crate::model::Plan;
use crate::rng::Rng;

/// the office that holds no processor
const NONE: u32 = 2;

/// an office's areas, the shared words and the other's records
fn lent(rig: &mut Rig, own: usize) -> (&mut Areas, &mut [u32], &[Progress]) {
    let [first, second] = &mut rig.offices;
    let (own, other) = if own == 0 { (first, second) } else { (second, first) };
    (own, &mut rig.engaged, &other.progress)
}

/// the event for the office `office`, which is lent the areas of office `own`
pub fn take(engine: &dyn Engine, given: Given, rig: &mut Rig, own: usize, office: u32, event: Event) -> u32 {
    let Given { encoded, route, hours } = given;
    let (areas, engaged, other) = lent(rig, own);
    match event {
        Event::Turn(p) => engine.tenant_turn(encoded, route, areas, engaged, other, office, p),
        Event::TurnAt(p, minute) => {
            engine.tenant_turn_at(encoded, route, areas, engaged, other, hours, minute, office, p)
        }
        Event::Deliver(message) => engine.tenant_deliver(encoded, route, areas, engaged, other, office, message),
    }
}

impl Pair<'_> {
    pub fn lend_rig(&mut self, rig: Rig) {
        self.their_rig = rig.clone();
        self.our_rig = rig;
    }

    pub fn fresh_both(&mut self) -> Outcome<u32> {
        let theirs = self.engine.fresh_both(&self.encoded, self.route, &mut self.their_rig);
        let ours = self.model.fresh_both(&self.encoded, self.route, &mut self.our_rig);
        let route = self.route;
        self.compare("fresh_both", &|| format!("{route:?}"), (theirs, ours), (&[], &[]))
    }

    /// an event of an office that is lent the areas of office `own`
    pub fn office_event(&mut self, own: usize, office: u32, event: Event) -> Outcome<u32> {
        let given = Given { encoded: &self.encoded, route: self.route, hours: &self.hours };
        let theirs = take(self.engine, given, &mut self.their_rig, own, office, event);
        let ours = take(self.model, given, &mut self.our_rig, own, office, event);
        let name = match event {
            Event::Turn(_) => "tenant_turn",
            Event::TurnAt(..) => "tenant_turn_at",
            Event::Deliver(_) => "tenant_deliver",
        };
        let route = self.route;
        self.compare(name, &|| format!("{route:?} {event:?} of office {office}"), (theirs, ours), (&[], &[]))
    }

    fn tenant_collect(&mut self, own: usize, office: u32, grid: &mut [u32]) -> Outcome<u32> {
        let mut copy = grid.to_vec();
        let (areas, engaged, other) = lent(&mut self.their_rig, own);
        let theirs = self.engine.tenant_collect(&self.encoded, self.route, areas, engaged, other, office, &mut copy);
        let (areas, engaged, other) = lent(&mut self.our_rig, own);
        let ours = self.model.tenant_collect(&self.encoded, self.route, areas, engaged, other, office, grid);
        let route = self.route;
        self.compare("tenant_collect", &|| format!("{route:?} of office {office}"), (theirs, ours), (&copy, grid))
    }

    fn view(&mut self, office: u32, processor: u32) -> Outcome<u32> {
        let (mut theirs, mut ours) = ([7; VIEW_WORDS], [8; VIEW_WORDS]);
        let [first, second] = [0, 1].map(|o: usize| self.our_rig.offices[o].memories.clone());
        let numbers = (
            self.engine.view_of(&self.encoded, [&first, &second], office, processor, &mut theirs),
            self.model.view_of(&self.encoded, [&first, &second], office, processor, &mut ours),
        );
        self.compare("view", &|| format!("of {processor}, office {office}"), numbers, (&theirs, &ours))
    }
}

/// an office, seldom one that there is not
fn some_office(rng: &mut Rng) -> u32 {
    match rng.below(20) {
        0 => rng.of(&[2, 3, u32::MAX]),
        _ => rng.below(2) as u32,
    }
}

/// one call of an office, mostly lent its own areas
pub fn one_call(pair: &mut Pair, rng: &mut Rng) -> Outcome<u32> {
    let office = some_office(rng);
    let own = if office > 1 || rng.one_in(12) { rng.below(2) } else { office as usize };
    let areas = &pair.our_rig.offices[own];
    let (cells, processor) = (areas.source.len(), some_number(rng, areas.progress.len()));
    let message = some_number(rng, areas.status.len());
    let route = pair.route;
    pair.route = if rng.one_in(12) { some_route(rng) } else { route };
    let called = match rng.below(12) {
        0 => pair.fresh_both(),
        1 | 2 => pair.office_event(own, office, Event::Deliver(message)),
        3 => pair.tenant_collect(own, office, &mut words(rng, cells)),
        4 | 5 => pair.view(office, processor),
        _ => {
            let event = turn_event(rng, &pair.hours, processor);
            pair.office_event(own, office, event)
        }
    };
    pair.route = route;
    called
}

/// a fit state of both offices, whether or not a run reaches it
pub fn any_rig(rng: &mut Rng, plan: &Plan) -> Rig {
    let mut offices = [any_state(rng, plan), any_state(rng, plan)];
    let engaged = (0..plan.processors).map(|processor| {
        let stages = [0, 1].map(|o: usize| offices[o].progress[processor].stage);
        let holder = match stages {
            [0, 0] => NONE,
            [_, 0] => 0,
            [0, _] => 1,
            _ => rng.below(2) as u32,
        };
        for (o, areas) in offices.iter_mut().enumerate().filter(|&(o, _)| o as u32 != holder) {
            let record = &mut areas.progress[processor];
            *record = Progress { finished: record.finished, stage: 0, sent: 0 };
            // the other office is often stopped by nothing else
            if holder != NONE && o < 2 && rng.one_in(2) {
                let tile = plan.tiles_of_processor[processor].get(record.finished as usize);
                let dues = tile.map_or(&[][..], |&tile| &plan.dues[tile]);
                dues.iter().for_each(|&message| areas.status[message] = 2);
            }
        }
        holder
    });
    let engaged = engaged.collect();
    Rig { offices, engaged }
}

/// a state just beyond fit: a shared word, or a record or mark of one office
fn make_rig_unfit(rng: &mut Rng, plan: &Plan, rig: &mut Rig) {
    let processor = rng.below(plan.processors);
    match rng.below(4) {
        0 => rig.engaged[processor] = rng.of(&[0, 1, 2, 3, 256, u32::MAX]),
        1 => rig.engaged[processor] ^= 1,
        own => make_unfit(rng, plan, &mut rig.offices[own % 2]),
    }
}

/// a state of both offices that is mostly fit, with lengths that are mostly right
pub fn some_rig(rng: &mut Rng, plan: &Plan) -> Rig {
    let mut rig = any_rig(rng, plan);
    // finished records, so that collecting is tried
    if rng.one_in(5) {
        for p in 0..plan.processors {
            let finished = plan.tiles_of_processor[p].len() as u32;
            let own = rng.below(2);
            rig.offices[own].progress[p] = Progress { finished, stage: 0, sent: 0 };
            if rig.engaged[p] == own as u32 {
                rig.engaged[p] = NONE;
            }
        }
    }
    if rng.one_in(3) {
        make_rig_unfit(rng, plan, &mut rig);
    }
    if rng.one_in(8) {
        match rng.below(4) {
            0 => rig.engaged.resize(other_length(rng, rig.engaged.len()), NONE),
            place => wrong_lengths(rng, &mut rig.offices[place % 2]),
        }
    }
    rig
}

/// any states, or runs
pub fn any(pair: &mut Pair, rng: &mut Rng, plan: &Plan) -> Outcome<()> {
    match rng.below(4) {
        0 | 1 => states(pair, rng, plan),
        2 => run(pair, rng, plan),
        _ => apart(pair, rng, plan),
    }
}

fn states(pair: &mut Pair, rng: &mut Rng, plan: &Plan) -> Outcome<()> {
    for _ in 0..rng.between(2, 6) {
        let rig = some_rig(rng, plan);
        pair.lend_rig(rig);
        for _ in 0..rng.between(1, 4) {
            one_call(pair, rng)?;
        }
    }
    Ok(())
}

/// a fresh start for both offices over any words
fn start(pair: &mut Pair, rng: &mut Rng, plan: &Plan) -> Outcome<()> {
    let mut rig = any_rig(rng, plan);
    if rng.one_in(2) {
        make_rig_unfit(rng, plan, &mut rig);
    }
    pair.lend_rig(rig);
    pair.fresh_both().map(|_| ())
}

/// both offices' runs, mixed at random, to their ends; each grid is its own sweep's
pub fn run(pair: &mut Pair, rng: &mut Rng, plan: &Plan) -> Outcome<()> {
    start(pair, rng, plan)?;
    // one office is seldom far ahead, or comes second altogether
    let first = rng.of(&[1, 5, 9, 10]);
    let mut steps = [0; 2];
    while steps != [plan.steps(); 2] {
        let own = usize::from(rng.below(10) >= first || steps[0] == plan.steps());
        let event = some_event(rng, plan, &pair.our_rig.offices[own], &pair.hours);
        steps[own] += usize::from(pair.office_event(own, own as u32, event)? == 0);
        if steps[own] > plan.steps() {
            return Err(("run of two offices".into(), format!("office {own} went on after its last step")));
        }
        if rng.one_in(40) {
            one_refused(pair, rng, plan)?;
        }
    }
    for own in 0..2 {
        let mut grid = words(rng, plan.cells);
        let number = pair.tenant_collect(own, own as u32, &mut grid)?;
        let source = pair.our_rig.offices[own].source.clone();
        let mut swept = words(rng, plan.cells);
        pair.sweep(&source, &mut swept)?;
        if number != 0 || grid != swept {
            return Err(("run of two offices".into(), format!("office {own}: {number}, not the words of its sweep")));
        }
    }
    pair.tally.runs += 2;
    Ok(())
}

/// a call within a run that changes nothing
fn one_refused(pair: &mut Pair, rng: &mut Rng, plan: &Plan) -> Outcome<()> {
    let (office, own) = (some_office(rng), rng.below(2));
    let (processor, message) = (some_number(rng, plan.processors), some_number(rng, plan.messages.len()));
    pair.view(office, processor)?;
    if office > 1 {
        let turn = turn_event(rng, &pair.hours, processor);
        let event = if rng.one_in(2) { turn } else { Event::Deliver(message) };
        pair.office_event(own, office, event)?;
    } else {
        pair.tenant_collect(office as usize, office, &mut words(rng, plan.cells))?;
    }
    Ok(())
}

/// Two runs that agree on one office's source, its events and their numbers, not on the other's: that office's own areas
/// are left the same after each of its events. The source is another for the other office, and so are its events.
fn apart(pair: &mut Pair, rng: &mut Rng, plan: &Plan) -> Outcome<()> {
    let own = rng.below(2);
    start(pair, rng, plan)?;
    let source = pair.our_rig.offices[own].source.clone();
    let mut events: Vec<(Event, u32, Areas)> = vec![];
    for _ in 0..rng.between(1, 60) {
        let office = if rng.one_in(3) { 1 - own } else { own };
        let event = some_event(rng, plan, &pair.our_rig.offices[office], &pair.hours);
        let number = pair.office_event(office, office as u32, event)?;
        if office == own {
            events.push((event, number, pair.their_rig.offices[own].clone()));
        }
    }
    start(pair, rng, plan)?;
    for rig in [&mut pair.their_rig, &mut pair.our_rig] {
        rig.offices[own].source.clone_from(&source);
    }
    let mut tries = 0;
    let mut rest = &events[..];
    while let [(event, number, areas), tail @ ..] = rest {
        let given = Given { encoded: &pair.encoded, route: pair.route, hours: &pair.hours };
        let would = take(pair.model, given, &mut pair.our_rig.clone(), own, own as u32, *event);
        if would == *number && !rng.one_in(3) {
            pair.office_event(own, own as u32, *event)?;
            if pair.their_rig.offices[own] != *areas {
                return Err(("two runs".into(), format!("office {own} was left other words by {event:?}")));
            }
            rest = tail;
        } else {
            // the other office goes on, and may free the processor or hold it
            let event = some_event(rng, plan, &pair.our_rig.offices[1 - own], &pair.hours);
            pair.office_event(1 - own, 1 - own as u32, event)?;
            tries += 1;
            if tries > 200 {
                break;
            }
        }
    }
    Ok(())
}

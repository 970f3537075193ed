//! Trials of processors that are each lent their own part alone: any state and states that are not fit, lengths that are
//! not right, and whole runs in which mail comes late, again and to others.

use super::{any_state, make_unfit, other_length, some_number, some_route, words, Outcome, Pair};
use crate::engine::{Areas, Engine, Part, PART_ROW_WORDS, PART_SIZES_WORDS};
use crate::model::{Own, Plan};
use crate::rng::Rng;

/// a message under way: its taker, its number, its words
type Packet = (usize, u32, Vec<u32>);

/// a processor's part of areas of all
fn part_of(plan: &Plan, areas: &Areas, processor: usize) -> Part {
    let own = Own::of(plan, processor);
    let memory = &areas.memories[processor * plan.cells..][..plan.cells];
    let words = |&m: &usize| areas.buffer[plan.messages[m].offset..][..plan.messages[m].cells.len()].to_vec();
    Part {
        source: own.cells.iter().map(|&cell| areas.source[cell]).collect(),
        memory: own.kept.iter().map(|&cell| memory[cell]).collect(),
        mail: own.handled.iter().flat_map(words).collect(),
        progress: vec![areas.progress[processor]],
        marks: own.handled.iter().map(|&m| areas.status[m]).collect(),
    }
}

impl Pair<'_> {
    fn lend_parts(&mut self, plan: &Plan, areas: &Areas) {
        self.our_parts = (0..plan.processors).map(|processor| part_of(plan, areas, processor)).collect();
        self.their_parts = self.our_parts.clone();
    }

    fn part_sizes(&mut self, processor: u32) -> Outcome<u32> {
        let (mut theirs, mut ours) = ([7; PART_SIZES_WORDS], [8; PART_SIZES_WORDS]);
        let numbers = (
            self.engine.part_sizes(&self.encoded, self.route, processor, &mut theirs),
            self.model.part_sizes(&self.encoded, self.route, processor, &mut ours),
        );
        let route = self.route;
        self.compare("part_sizes", &|| format!("{route:?} of {processor}"), numbers, (&theirs, &ours))
    }

    fn part_messages(&mut self, processor: u32, out: &mut [u32]) -> Outcome<u32> {
        let mut told = out.to_vec();
        let theirs = self.engine.part_messages(&self.encoded, self.route, processor, &mut told);
        let ours = self.model.part_messages(&self.encoded, self.route, processor, out);
        let route = self.route;
        self.compare("part_messages", &|| format!("{route:?} of {processor}"), (theirs, ours), (&told, out))
    }

    /// one call on the part at a place, by the engine and by the model
    fn on_part(
        &mut self, call: &'static str, at: usize, told: &dyn Fn() -> String,
        act: &dyn Fn(&dyn Engine, &mut Part) -> u32,
    ) -> Outcome<u32> {
        let theirs = act(self.engine, &mut self.their_parts[at]);
        let ours = act(self.model, &mut self.our_parts[at]);
        let route = self.route;
        let what = || format!("{route:?} of part {at}, {}", told());
        self.compare(call, &what, (theirs, ours), (&[], &[]))
    }

    fn part_fresh(&mut self, at: usize, processor: u32) -> Outcome<u32> {
        let (encoded, route) = (self.encoded.clone(), self.route);
        let fresh = |engine: &dyn Engine, part: &mut Part| engine.part_fresh(&encoded, route, part, processor);
        self.on_part("part_fresh", at, &|| format!("as {processor}"), &fresh)
    }

    fn part_turn(&mut self, at: usize, processor: u32) -> Outcome<u32> {
        let (encoded, route) = (self.encoded.clone(), self.route);
        let turn = |engine: &dyn Engine, part: &mut Part| engine.part_turn(&encoded, route, part, processor);
        self.on_part("part_turn", at, &|| format!("as {processor}"), &turn)
    }

    fn part_post(&mut self, at: usize, processor: u32, message: u32) -> Outcome<u32> {
        let (encoded, route) = (self.encoded.clone(), self.route);
        let post = |engine: &dyn Engine, part: &mut Part| engine.part_post(&encoded, route, part, processor, message);
        self.on_part("part_post", at, &|| format!("as {processor}, message {message}"), &post)
    }

    fn part_arrive(&mut self, at: usize, processor: u32, message: u32, words: &[u32]) -> Outcome<u32> {
        let (encoded, route) = (self.encoded.clone(), self.route);
        let arrive =
            |engine: &dyn Engine, part: &mut Part| engine.part_arrive(&encoded, route, part, processor, message, words);
        self.on_part("part_arrive", at, &|| format!("as {processor}, message {message}"), &arrive)
    }

    fn part_collect(&mut self, at: usize, processor: u32, grid: &mut [u32]) -> Outcome<u32> {
        let mut told = grid.to_vec();
        let (encoded, route) = (&self.encoded, self.route);
        let theirs = self.engine.part_collect(encoded, route, &mut self.their_parts[at], processor, &mut told);
        let ours = self.model.part_collect(encoded, route, &mut self.our_parts[at], processor, grid);
        let what = || format!("{route:?} of part {at}, as {processor}");
        self.compare("part_collect", &what, (theirs, ours), (&told, grid))
    }

    /// any one call on a part, by its own processor mostly
    fn any_own_call(&mut self, rng: &mut Rng) -> Outcome<u32> {
        let plan = self.plan();
        let at = rng.below(self.our_parts.len());
        let processor = if rng.one_in(6) { some_number(rng, self.our_parts.len()) } else { at as u32 };
        let message = some_message(rng, plan.as_deref(), at);
        let held = plan.as_ref().and_then(|plan| plan.messages.get(message as usize)).map_or(1, |m| m.cells.len());
        let length = if rng.one_in(8) { other_length(rng, held) } else { held };
        match rng.below(12) {
            0 => self.part_fresh(at, processor),
            1 | 2 => self.part_post(at, processor, message),
            3 | 4 => {
                let words = words(rng, length);
                self.part_arrive(at, processor, message, &words)
            }
            5 => self.part_sizes(processor),
            6 => {
                let rows = PART_ROW_WORDS * self.our_parts[at].marks.len();
                self.part_messages(processor, &mut words(rng, rows))
            }
            7 => {
                let cells = plan.map_or(3, |plan| plan.cells);
                self.part_collect(at, processor, &mut words(rng, cells))
            }
            _ => self.part_turn(at, processor),
        }
    }
}

/// a message's number: mostly one that the processor handles
fn some_message(rng: &mut Rng, plan: Option<&Plan>, processor: usize) -> u32 {
    let Some(plan) = plan else { return some_number(rng, 3) };
    let handled = if processor < plan.processors { Own::of(plan, processor).handled } else { vec![] };
    if handled.is_empty() || rng.one_in(4) {
        return some_number(rng, plan.messages.len());
    }
    rng.of(&handled) as u32
}

/// lengths and messages of every processor, and of one that is not there
fn told(pair: &mut Pair, rng: &mut Rng, plan: &Plan) -> Outcome<()> {
    for processor in 0..plan.processors {
        let rows = PART_ROW_WORDS * Own::of(plan, processor).handled.len();
        pair.part_sizes(processor as u32)?;
        pair.part_messages(processor as u32, &mut words(rng, rows))?;
        if rng.one_in(8) {
            let length = other_length(rng, rows);
            pair.part_messages(processor as u32, &mut words(rng, length))?;
        }
    }
    let beyond = rng.of(&[plan.processors as u32, u32::MAX]);
    pair.part_sizes(beyond)?;
    let length = rng.below(3 * PART_ROW_WORDS);
    pair.part_messages(beyond, &mut words(rng, length)).map(|_| ())
}

fn wrong_lengths(rng: &mut Rng, part: &mut Part) {
    match rng.below(5) {
        0 => part.source.resize(other_length(rng, part.source.len()), 7),
        1 => part.memory.resize(other_length(rng, part.memory.len()), 7),
        2 => part.mail.resize(other_length(rng, part.mail.len()), 7),
        3 => part.progress.resize(other_length(rng, 1), Default::default()),
        _ => part.marks.resize(other_length(rng, part.marks.len()), 0),
    }
}

/// any fit state, states that are not fit, parts of other lengths
fn states(pair: &mut Pair, rng: &mut Rng, plan: &Plan) -> Outcome<()> {
    for _ in 0..rng.between(2, 8) {
        let mut areas = any_state(rng, plan);
        // collecting takes finished records
        if rng.one_in(4) {
            for (record, tiles) in areas.progress.iter_mut().zip(&plan.tiles_of_processor) {
                (record.finished, record.stage, record.sent) = (tiles.len() as u32, 0, 0);
            }
        }
        if rng.one_in(3) {
            make_unfit(rng, plan, &mut areas);
        }
        pair.lend_parts(plan, &areas);
        if rng.one_in(4) {
            let at = rng.below(plan.processors);
            wrong_lengths(rng, &mut pair.our_parts[at]);
            pair.their_parts[at] = pair.our_parts[at].clone();
        }
        let route = pair.route;
        for _ in 0..rng.between(1, 6) {
            pair.route = if rng.one_in(10) { some_route(rng) } else { route };
            pair.any_own_call(rng)?;
        }
        pair.route = route;
    }
    Ok(())
}

/// a run of all processors on their parts alone, in a random order; what is posted comes late, again, and to others
fn run(pair: &mut Pair, rng: &mut Rng, plan: &Plan) -> Outcome<()> {
    let areas = any_state(rng, plan);
    pair.lend_parts(plan, &areas);
    for processor in 0..plan.processors {
        pair.part_fresh(processor, processor as u32)?;
    }
    let (mut mail, mut steps): (Vec<Packet>, _) = (vec![], 0);
    while steps < plan.steps() {
        // mostly one that has not finished
        let left = |&at: &usize| (pair.our_parts[at].progress[0].finished as usize) < plan.tiles_of_processor[at].len();
        let going: Vec<usize> = (0..plan.processors).filter(left).collect();
        let at = if going.is_empty() || rng.one_in(6) { rng.below(plan.processors) } else { rng.of(&going) };
        match rng.below(6) {
            0..3 => {
                while pair.part_turn(at, at as u32)? == 0 {
                    steps += 1;
                    if rng.one_in(3) {
                        break;
                    }
                }
            }
            3 => steps += usize::from(arrival(pair, rng, plan, &mail)? == Some(0)),
            _ => post(pair, rng, plan, &mut mail)?,
        }
    }
    let (mut grid, mut swept) = (words(rng, plan.cells), words(rng, plan.cells));
    let start = rng.below(plan.processors);
    let mut numbers = 0;
    for place in 0..plan.processors {
        let at = (start + place) % plan.processors;
        numbers += pair.part_collect(at, at as u32, &mut grid)?;
    }
    pair.sweep(&areas.source, &mut swept)?;
    if numbers != 0 || grid != swept {
        return Err(("run on own parts".into(), "collecting did not give the words of the sweep".into()));
    }
    pair.tally.runs += 1;
    Ok(())
}

/// posts what is in flight, mostly, and now and then any message anywhere
fn post(pair: &mut Pair, rng: &mut Rng, plan: &Plan, mail: &mut Vec<Packet>) -> Outcome<()> {
    if rng.one_in(8) {
        let at = rng.below(plan.processors);
        let message = some_message(rng, Some(plan), at);
        return posted(pair, plan, at, message, mail);
    }
    for at in 0..plan.processors {
        for (rank, message) in Own::of(plan, at).handled.into_iter().enumerate() {
            if pair.our_parts[at].marks[rank] == 1 && !rng.one_in(4) {
                posted(pair, plan, at, message as u32, mail)?;
            }
        }
    }
    Ok(())
}

/// posts a message; where that is done, its words as they lie in its sender's mail are under way
fn posted(pair: &mut Pair, plan: &Plan, at: usize, message: u32, mail: &mut Vec<Packet>) -> Outcome<()> {
    if pair.part_post(at, at as u32, message)? == 0 {
        let own = Own::of(plan, at);
        let rank = own.handled.binary_search(&(message as usize)).expect("it was posted there");
        let words = pair.our_parts[at].mail[own.places[rank]..own.places[rank + 1]].to_vec();
        mail.push((plan.processor_of_tile[plan.messages[message as usize].taker], message, words));
    }
    Ok(())
}

/// a message that is under way comes: mostly one that has not yet, to its taker
fn arrival(pair: &mut Pair, rng: &mut Rng, plan: &Plan, mail: &[Packet]) -> Outcome<Option<u32>> {
    let missing = |(taker, message, _): &&Packet| {
        let own = Own::of(plan, *taker);
        own.handled.binary_search(&(*message as usize)).is_ok_and(|rank| pair.our_parts[*taker].marks[rank] == 0)
    };
    let late: Vec<&Packet> = mail.iter().filter(missing).collect();
    if mail.is_empty() {
        return Ok(None);
    }
    let any = &mail[rng.below(mail.len())];
    let (taker, message, words) = if late.is_empty() || rng.one_in(5) { any } else { rng.of(&late) };
    let at = if rng.one_in(8) { rng.below(plan.processors) } else { *taker };
    pair.part_arrive(at, at as u32, *message, words).map(Some)
}

pub fn any(pair: &mut Pair, rng: &mut Rng, plan: &Plan) -> Outcome<()> {
    told(pair, rng, plan)?;
    if rng.one_in(2) {
        run(pair, rng, plan)
    } else {
        states(pair, rng, plan)
    }
}

/// a large recipe: some calls
pub fn large(pair: &mut Pair, rng: &mut Rng, plan: &Plan) -> Outcome<()> {
    let areas = any_state(rng, plan);
    pair.lend_parts(plan, &areas);
    for _ in 0..8 {
        pair.any_own_call(rng)?;
    }
    pair.our_parts.clear();
    pair.their_parts.clear();
    Ok(())
}

/// for a recipe that may be damaged, over the parts of its sound form
pub fn damaged(pair: &mut Pair, rng: &mut Rng, sound: &Plan, areas: &Areas) -> Outcome<()> {
    pair.lend_parts(sound, areas);
    for _ in 0..4 {
        pair.any_own_call(rng)?;
    }
    Ok(())
}

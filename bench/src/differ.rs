//! Random trials of an engine against the model: every answer and every lent word is compared.
//! A trial follows from its seed alone, so a difference is found again by that seed.

mod desk;
mod events;
mod hours;
mod offices;
mod own;
mod rounds;
mod swaps;

use crate::engine::{Areas, Engine, Part, Progress, Request, Rig, Route, HOPS_WORDS, MESSAGE_WORDS, SUMMARY_WORDS};
use crate::model::{Model, Plan};
use crate::recipe::{self, Limits, Numbers};
use crate::rng::Rng;
use std::collections::BTreeMap;
use std::fmt::{self, Debug};
use std::panic::{catch_unwind, AssertUnwindSafe};
use std::rc::Rc;

/// where the engine and the model part
pub struct Difference {
    pub seed: u64,
    call: String,
    encoded: Vec<u8>,
    detail: String,
}

impl fmt::Display for Difference {
    fn fmt(&self, f: &mut fmt::Formatter<'_>) -> fmt::Result {
        writeln!(f, "difference at seed {}: {}: {}", self.seed, self.call, self.detail)?;
        for record in self.encoded.chunks(16) {
            writeln!(f, "  recipe {}", record.iter().map(|byte| format!("{byte:02x}")).collect::<Vec<_>>().join(" "))?;
        }
        Ok(())
    }
}

/// how often each call gave each number
#[derive(Default)]
pub struct Tally {
    pub trials: u64,
    pub runs: u64,
    /// trials of a plan with a message of forwarded cells alone
    pub forwarded: u64,
    /// of a shape, and of one in which some message is taken by a later tile than that in its direction
    pub shaped: u64,
    pub shifted: u64,
    /// pairs of events that were tried both ways round
    pub swaps: u64,
    calls: BTreeMap<&'static str, [u64; 32]>,
}

impl Tally {
    pub fn calls(&self) -> u64 {
        self.calls.values().flatten().sum()
    }

    /// how often a call gave a number
    #[cfg(test)]
    pub fn count(&self, call: &str, number: usize) -> u64 {
        self.calls.get(call).map_or(0, |numbers| numbers[number])
    }
}

impl fmt::Display for Tally {
    fn fmt(&self, f: &mut fmt::Formatter<'_>) -> fmt::Result {
        let Tally { trials, runs, forwarded, shaped, shifted, swaps, .. } = self;
        write!(
            f,
            "{trials} trials, {forwarded} of them with a message of forwarded cells alone, {shaped} of a shape, "
        )?;
        write!(f, "{shifted} with a message that passes over an empty tile, {runs} whole runs, ")?;
        write!(f, "{swaps} pairs of events swapped, ")?;
        writeln!(f, "{} calls; by call and number:", self.calls())?;
        for (call, numbers) in &self.calls {
            write!(f, "  {call:14}")?;
            for (number, count) in numbers.iter().enumerate().filter(|(_, count)| **count != 0) {
                write!(f, "  {number}: {count}")?;
            }
            writeln!(f)?;
        }
        Ok(())
    }
}

type Outcome<T> = Result<T, (String, String)>;

/// the engine and the model, each with its own areas, kept in step
struct Pair<'a> {
    engine: &'a dyn Engine,
    model: &'a Model,
    tally: &'a mut Tally,
    encoded: Vec<u8>,
    route: Route,
    theirs: Areas,
    ours: Areas,
    /// of two offices, in trials of these
    their_rig: Rig,
    our_rig: Rig,
    /// of the processors, empty where turns have no minute
    hours: Vec<u32>,
    /// of each processor alone, in trials of these
    their_parts: Vec<Part>,
    our_parts: Vec<Part>,
}

fn first_difference<T: PartialEq + Debug>(area: &str, theirs: &[T], ours: &[T]) -> Option<String> {
    let place = (0..theirs.len().max(ours.len())).find(|&place| theirs.get(place) != ours.get(place))?;
    Some(format!("{area} at {place}: {:?}, model {:?}", theirs.get(place), ours.get(place)))
}

fn differing_areas(a: &Areas, b: &Areas) -> Option<String> {
    first_difference("source", &a.source, &b.source)
        .or_else(|| first_difference("memories", &a.memories, &b.memories))
        .or_else(|| first_difference("buffer", &a.buffer, &b.buffer))
        .or_else(|| first_difference("progress", &a.progress, &b.progress))
        .or_else(|| first_difference("status", &a.status, &b.status))
}

fn differing_rigs(a: &Rig, b: &Rig) -> Option<String> {
    let office = |o: usize| Some(format!("office {o}, {}", differing_areas(&a.offices[o], &b.offices[o])?));
    office(0).or_else(|| office(1)).or_else(|| first_difference("engaged", &a.engaged, &b.engaged))
}

fn differing_parts(a: &[Part], b: &[Part]) -> Option<String> {
    let part = |(at, (a, b)): (usize, (&Part, &Part))| {
        let found = first_difference("source", &a.source, &b.source)
            .or_else(|| first_difference("memory", &a.memory, &b.memory))
            .or_else(|| first_difference("mail", &a.mail, &b.mail))
            .or_else(|| first_difference("progress", &a.progress, &b.progress))
            .or_else(|| first_difference("marks", &a.marks, &b.marks));
        Some(format!("part {at}, {}", found?))
    };
    a.iter().zip(b).enumerate().find_map(part)
}

impl Pair<'_> {
    fn lend(&mut self, areas: Areas) {
        self.theirs = areas.clone();
        self.ours = areas;
    }

    /// compares the answers and all lent words; gives the number
    fn compare(
        &mut self, call: &'static str, what: &dyn Fn() -> String, numbers: (u32, u32), out: (&[u32], &[u32]),
    ) -> Outcome<u32> {
        let (theirs, ours) = numbers;
        self.tally.calls.entry(call).or_default()[ours as usize] += 1;
        let name = || format!("{call} {}", what());
        if theirs != ours {
            return Err((name(), format!("gave {theirs}, model {ours}")));
        }
        let found = differing_areas(&self.theirs, &self.ours)
            .or_else(|| differing_rigs(&self.their_rig, &self.our_rig))
            .or_else(|| differing_parts(&self.their_parts, &self.our_parts))
            .or_else(|| first_difference("words", out.0, out.1));
        match found {
            Some(detail) => Err((name(), format!("gave {ours}, {detail}"))),
            None => Ok(ours),
        }
    }

    fn fresh(&mut self) -> Outcome<u32> {
        let theirs = self.engine.fresh(&self.encoded, self.route, &mut self.theirs);
        let ours = self.model.fresh(&self.encoded, self.route, &mut self.ours);
        let route = self.route;
        self.compare("fresh", &|| format!("{route:?}"), (theirs, ours), (&[], &[]))
    }

    fn turn(&mut self, processor: u32) -> Outcome<u32> {
        let before = self.ours.progress.get(processor as usize).copied();
        let theirs = self.engine.turn(&self.encoded, self.route, &mut self.theirs, processor);
        let ours = self.model.turn(&self.encoded, self.route, &mut self.ours, processor);
        let route = self.route;
        self.compare("turn", &|| format!("{route:?} of {processor} at {before:?}"), (theirs, ours), (&[], &[]))
    }

    fn deliver(&mut self, message: u32) -> Outcome<u32> {
        let theirs = self.engine.deliver(&self.encoded, self.route, &mut self.theirs, message);
        let ours = self.model.deliver(&self.encoded, self.route, &mut self.ours, message);
        let route = self.route;
        self.compare("deliver", &|| format!("{route:?} of {message}"), (theirs, ours), (&[], &[]))
    }

    fn collect(&mut self, grid: &mut [u32]) -> Outcome<u32> {
        let mut copy = grid.to_vec();
        let theirs = self.engine.collect(&self.encoded, self.route, &mut self.theirs, &mut copy);
        let ours = self.model.collect(&self.encoded, self.route, &mut self.ours, grid);
        let route = self.route;
        self.compare("collect", &|| format!("{route:?}"), (theirs, ours), (&copy, grid))
    }

    fn sweep(&mut self, source: &[u32], grid: &mut [u32]) -> Outcome<u32> {
        let mut copy = grid.to_vec();
        let theirs = self.engine.sweep(&self.encoded, source, &mut copy);
        let ours = self.model.sweep(&self.encoded, source, grid);
        self.compare("sweep", &String::new, (theirs, ours), (&copy, grid))
    }

    fn summary(&mut self) -> Outcome<u32> {
        let (mut theirs, mut ours) = ([7; SUMMARY_WORDS], [8; SUMMARY_WORDS]);
        let numbers = (
            self.engine.summary(&self.encoded, self.route, &mut theirs),
            self.model.summary(&self.encoded, self.route, &mut ours),
        );
        let route = self.route;
        self.compare("summary", &|| format!("{route:?}"), numbers, (&theirs, &ours))
    }

    fn message(&mut self, message: u32) -> Outcome<u32> {
        let (mut theirs, mut ours) = ([7; MESSAGE_WORDS], [8; MESSAGE_WORDS]);
        let numbers = (
            self.engine.message(&self.encoded, self.route, message, &mut theirs),
            self.model.message(&self.encoded, self.route, message, &mut ours),
        );
        let route = self.route;
        self.compare("message", &|| format!("{route:?} {message}"), numbers, (&theirs, &ours))
    }

    fn hops(&mut self, message: u32) -> Outcome<u32> {
        let (mut theirs, mut ours) = ([7; HOPS_WORDS], [8; HOPS_WORDS]);
        let numbers =
            (self.engine.hops(&self.encoded, message, &mut theirs), self.model.hops(&self.encoded, message, &mut ours));
        self.compare("hops", &|| format!("of {message}"), numbers, (&theirs, &ours))
    }

    /// what is read, and what the engine's writer makes of it: the same bytes
    fn read(&mut self) -> Outcome<u32> {
        let (theirs, ours) = (self.engine.read(&self.encoded), self.model.read(&self.encoded));
        let bytes = |read: &Result<Numbers, u32>| read.as_ref().map_or(vec![], Numbers::bytes);
        let words = |bytes: Vec<u8>| bytes.into_iter().map(u32::from).collect::<Vec<u32>>();
        let number = |read: &Result<Numbers, u32>| read.as_ref().err().copied().unwrap_or(0);
        let told = (&words(bytes(&theirs))[..], &words(bytes(&ours))[..]);
        let number = self.compare("read", &String::new, (number(&theirs), number(&ours)), told)?;
        if let Ok(numbers) = theirs {
            let mut space = vec![0; self.encoded.len()];
            if self.engine.write(&numbers, &mut space) != 0 || space != self.encoded {
                return Err(("read".into(), "what is read and written again is another recipe".into()));
            }
        }
        Ok(number)
    }

    fn write(&mut self, numbers: &Numbers, space: &mut [u8]) -> Outcome<u32> {
        let mut copy = space.to_vec();
        let theirs = self.engine.write(numbers, &mut copy);
        let ours = self.model.write(numbers, space);
        let words = |bytes: &[u8]| bytes.iter().map(|&byte| u32::from(byte)).collect::<Vec<u32>>();
        self.compare("write", &String::new, (theirs, ours), (&words(&copy), &words(space)))
    }

    /// any one call, its numbers mostly in range
    fn any_call(&mut self, rng: &mut Rng) -> Outcome<u32> {
        let processor = some_number(rng, self.ours.progress.len());
        let message = some_number(rng, self.ours.status.len());
        let route = self.route;
        // now and then the route for which the areas were not made
        self.route = if rng.one_in(10) { some_route(rng) } else { route };
        let called = match rng.below(8) {
            0 => self.fresh(),
            1 | 2 => self.deliver(message),
            3 => self.collect(&mut words(rng, self.ours.source.len())),
            _ => self.turn(processor),
        };
        self.route = route;
        called
    }

    /// the model's plan by the pair's route
    fn plan(&self) -> Option<Rc<Plan>> {
        self.model.plan(&self.encoded, self.route).ok()
    }
}

fn some_route(rng: &mut Rng) -> Route {
    rng.of(&[Route::Direct, Route::Indirect])
}

fn words(rng: &mut Rng, length: usize) -> Vec<u32> {
    (0..length).map(|_| rng.any_word()).collect()
}

/// a number below `count`, seldom one that is too high
fn some_number(rng: &mut Rng, count: usize) -> u32 {
    match rng.below(12) {
        0 => count as u32,
        1 => rng.any_word(),
        _ => rng.below(count.max(1)) as u32,
    }
}

/// areas of the right sizes with any words in them; the records and marks are fit
fn any_state(rng: &mut Rng, plan: &Plan) -> Areas {
    let progress: Vec<Progress> = plan.tiles_of_processor.iter().map(|tiles| any_record(rng, plan, tiles)).collect();
    let usual = rng.below(4) as u8;
    let marks = plan.messages.iter().map(|_| if rng.one_in(2) { usual } else { rng.below(4) as u8 });
    let mut status: Vec<u8> = marks.collect();
    // due messages are mostly delivered, or no processor could gather
    if rng.one_in(2) {
        for (processor, record) in progress.iter().enumerate() {
            if let Some(&tile) = plan.tiles_of_processor[processor].get(record.finished as usize) {
                plan.dues[tile].iter().for_each(|&message| status[message] = 2);
            }
        }
    }
    Areas {
        source: words(rng, plan.cells),
        memories: words(rng, plan.cells * plan.processors),
        buffer: words(rng, plan.words),
        progress,
        status,
    }
}

fn any_record(rng: &mut Rng, plan: &Plan, tiles: &[usize]) -> Progress {
    let finished = rng.between(0, tiles.len());
    if finished == tiles.len() {
        return Progress { finished: finished as u32, stage: 0, sent: 0 };
    }
    let sends = plan.sends[tiles[finished]].len();
    let stage = rng.below(if sends == 0 { 2 } else { 3 });
    let sent = if stage == 2 { rng.below(sends) } else { 0 };
    Progress { finished: finished as u32, stage: stage as u32, sent: sent as u32 }
}

/// one record or mark that is mostly not fit, just beyond what is
fn make_unfit(rng: &mut Rng, plan: &Plan, areas: &mut Areas) {
    let processor = rng.below(plan.processors);
    let count = plan.tiles_of_processor[processor].len() as u32;
    let record = &mut areas.progress[processor];
    match rng.below(9) {
        0 => record.finished = rng.of(&[count, count + 1, u32::MAX, record.finished.wrapping_add(1)]),
        1 => record.stage = rng.of(&[0, 1, 2, 3, 256, u32::MAX]),
        2 => record.sent = rng.of(&[1, 2, u32::MAX, record.sent.wrapping_add(1), 65536]),
        3 => *record = Progress { finished: count, stage: rng.below(3) as u32, sent: rng.below(2) as u32 },
        4 => *record = Progress { stage: 2, ..*record },
        5 => *record = Progress { stage: rng.below(2) as u32, sent: rng.below(2) as u32, ..*record },
        6 => *record = Progress { finished: rng.any_word(), stage: rng.any_word(), sent: rng.any_word() },
        _ => {
            if !areas.status.is_empty() {
                let place = rng.below(areas.status.len());
                areas.status[place] = rng.of(&[4, 5, 128, 255]);
            }
        }
    }
}

/// a length near the right one, or not
fn other_length(rng: &mut Rng, length: usize) -> usize {
    match rng.below(5) {
        0 => 0,
        1 => length + 1,
        2 => length.saturating_sub(1),
        3 => rng.below(2 * length + 2),
        _ => length + rng.between(1, 16),
    }
}

fn wrong_lengths(rng: &mut Rng, areas: &mut Areas) {
    for _ in 0..rng.between(1, 2) {
        match rng.below(5) {
            0 => areas.source.resize(other_length(rng, areas.source.len()), 7),
            1 => areas.memories.resize(other_length(rng, areas.memories.len()), 7),
            2 => areas.buffer.resize(other_length(rng, areas.buffer.len()), 7),
            3 => areas.progress.resize(other_length(rng, areas.progress.len()), Progress::default()),
            _ => areas.status.resize(other_length(rng, areas.status.len()), 0),
        }
    }
}

/// the plan's totals and lines on a route
fn lines(pair: &mut Pair, rng: &mut Rng) -> Outcome<()> {
    pair.summary()?;
    let messages = pair.plan().map_or(2, |plan| plan.messages.len());
    for message in 0..messages.min(40) {
        // all of a short list, else some of a long one
        let message = if messages <= 40 { message } else { rng.below(messages) };
        pair.message(message as u32)?;
        // the count of direct messages may be another, so some of these are too high
        pair.hops(message as u32)?;
    }
    let beyond = rng.of(&[messages as u32, messages as u32 + 1, u32::MAX]);
    pair.message(beyond)?;
    pair.hops(beyond).map(|_| ())
}

/// the plan's totals and lines, by one route or by both, and the sweep
fn reading(pair: &mut Pair, rng: &mut Rng) -> Outcome<()> {
    pair.read()?;
    lines(pair, rng)?;
    let route = pair.route;
    pair.route = some_route(rng);
    if pair.route != route {
        lines(pair, rng)?;
    }
    // the sweep knows no route
    let plan = pair.model.plan(&pair.encoded, Route::Direct).ok();
    let cells = plan.map_or(rng.below(5), |plan| plan.cells);
    let source = words(rng, cells);
    pair.sweep(&source, &mut words(rng, cells))?;
    if rng.one_in(4) {
        let lengths = (other_length(rng, cells), other_length(rng, cells));
        let lengths = rng.of(&[lengths, (cells, lengths.1), (lengths.0, cells)]);
        let source = words(rng, lengths.0);
        pair.sweep(&source, &mut words(rng, lengths.1))?;
    }
    pair.route = route;
    Ok(())
}

/// the recipe of these numbers into a space of its length, and seldom of another
fn writing(pair: &mut Pair, rng: &mut Rng, numbers: &Numbers) -> Outcome<()> {
    let length = numbers.bytes().len();
    let length = if rng.one_in(4) { other_length(rng, length) } else { length };
    let mut space: Vec<u8> = (0..length).map(|_| rng.word() as u8).collect();
    pair.write(numbers, &mut space).map(|_| ())
}

/// a damaged recipe through every call, with areas as its sound form has them; it and its sound form are written too
fn damaged(pair: &mut Pair, rng: &mut Rng, numbers: Numbers) -> Outcome<()> {
    let sound = pair.plan();
    if let Some(plan) = &sound {
        let areas = any_state(rng, plan);
        pair.lend(areas);
        if pair.engine.has(Request::Offices) {
            let rig = offices::any_rig(rng, plan);
            pair.lend_rig(rig);
        }
    }
    writing(pair, rng, &numbers)?;
    let shapes = pair.engine.has(Request::Shapes);
    let faulty = recipe::faulty(rng, numbers, shapes);
    pair.encoded = faulty.bytes();
    writing(pair, rng, &faulty)?;
    pair.encoded = recipe::damaged(rng, &faulty, shapes);
    reading(pair, rng)?;
    for _ in 0..3 {
        pair.any_call(rng)?;
    }
    if pair.engine.has(Request::Offices) {
        offices::one_call(pair, rng)?;
    }
    let plan = pair.model.plan(&pair.encoded, Route::Direct).ok();
    let cells = plan.map_or(1, |plan| plan.cells);
    if pair.engine.has(Request::Soundings) {
        desk::soundings(pair, rng, cells)?;
    }
    if pair.engine.has(Request::Chart) {
        desk::chart(pair, rng, cells)?;
    }
    if pair.engine.has(Request::Hours) {
        hours::damaged(pair, rng)?;
    }
    if pair.engine.has(Request::Rounds) {
        rounds::damaged(pair, rng)?;
    }
    if let Some(sound) = sound.filter(|_| pair.engine.has(Request::Own)) {
        let areas = any_state(rng, &sound);
        own::damaged(pair, rng, &sound, &areas)?;
    }
    // what is still accepted lies near a limit
    match pair.plan() {
        Some(plan) if plan.cells * plan.processors <= 20_000 => states(pair, rng, &plan),
        _ => Ok(()),
    }
}

/// any fit state, whether or not a run reaches it, and states that are not fit
fn states(pair: &mut Pair, rng: &mut Rng, plan: &Plan) -> Outcome<()> {
    let areas = any_state(rng, plan);
    pair.lend(areas);
    for _ in 0..rng.between(1, 12) {
        pair.any_call(rng)?;
        if rng.one_in(4) {
            let areas = any_state(rng, plan);
            pair.lend(areas);
        }
        if rng.one_in(3) {
            let kept = pair.ours.clone();
            let mut areas = pair.ours.clone();
            make_unfit(rng, plan, &mut areas);
            pair.lend(areas);
            pair.any_call(rng)?;
            pair.any_call(rng)?;
            pair.lend(kept);
        }
    }
    // finished records, so that collecting is tried over any words
    if rng.one_in(3) {
        let mut areas = any_state(rng, plan);
        for (record, tiles) in areas.progress.iter_mut().zip(&plan.tiles_of_processor) {
            *record = Progress { finished: tiles.len() as u32, stage: 0, sent: 0 };
        }
        pair.lend(areas);
        pair.collect(&mut words(rng, plan.cells))?;
    }
    Ok(())
}

fn lengths(pair: &mut Pair, rng: &mut Rng, plan: &Plan) -> Outcome<()> {
    for _ in 0..4 {
        let mut areas = any_state(rng, plan);
        if rng.one_in(3) {
            make_unfit(rng, plan, &mut areas);
        }
        wrong_lengths(rng, &mut areas);
        pair.lend(areas);
        pair.any_call(rng)?;
        let length = other_length(rng, plan.cells);
        pair.collect(&mut words(rng, length))?;
    }
    Ok(())
}

/// how a run's next call is chosen
#[derive(Clone, Copy)]
enum Schedule {
    /// any processor, any message
    Random,
    /// turns of processors in rising or falling order while one can be taken, then all deliveries
    Rising,
    Falling,
    /// one processor goes as far as it can; deliveries one at a time
    Greedy,
}

/// a run from a fresh start to collecting, in some order, with refused calls between
fn run(pair: &mut Pair, rng: &mut Rng, plan: &Plan) -> Outcome<()> {
    let mut areas = any_state(rng, plan);
    if rng.one_in(2) {
        make_unfit(rng, plan, &mut areas);
    }
    pair.lend(areas);
    pair.fresh()?;
    let schedule = rng.of(&[Schedule::Random, Schedule::Random, Schedule::Rising, Schedule::Falling, Schedule::Greedy]);
    let mut steps = 0;
    while steps < plan.steps() {
        let before = steps;
        steps += round(pair, rng, plan, schedule)?;
        if rng.one_in(20) {
            pair.collect(&mut words(rng, plan.cells))?;
        }
        if matches!(schedule, Schedule::Rising | Schedule::Falling | Schedule::Greedy) && steps == before {
            return Err(("run".into(), format!("stopped after {steps} of {} steps", plan.steps())));
        }
    }
    for _ in 0..3 {
        let (processor, message) = (some_number(rng, plan.processors), some_number(rng, plan.messages.len()));
        pair.turn(processor)?;
        pair.deliver(message)?;
    }
    let mut grid = words(rng, plan.cells);
    let number = pair.collect(&mut grid)?;
    let mut swept = words(rng, plan.cells);
    let source = pair.ours.source.clone();
    pair.sweep(&source, &mut swept)?;
    if number != 0 || grid != swept {
        return Err(("run".into(), format!("collecting gave {number}, and not the words of the sweep")));
    }
    pair.tally.runs += 1;
    Ok(())
}

/// some calls by the schedule; gives how many gave 0
fn round(pair: &mut Pair, rng: &mut Rng, plan: &Plan, schedule: Schedule) -> Outcome<usize> {
    let processors = plan.processors as u32;
    let messages = plan.messages.len() as u32;
    let mut done = 0;
    match schedule {
        Schedule::Random => {
            let number = if rng.one_in(2) || (plan.messages.is_empty() && !rng.one_in(8)) {
                pair.turn(some_number(rng, plan.processors))?
            } else {
                // mostly one in flight, if there is one
                let flying: Vec<u32> = (0..messages).filter(|&m| pair.ours.status[m as usize] == 1).collect();
                let message = some_number(rng, plan.messages.len());
                pair.deliver(if flying.is_empty() || rng.one_in(4) { message } else { rng.of(&flying) })?
            };
            done += usize::from(number == 0);
        }
        Schedule::Rising | Schedule::Falling => {
            for place in 0..processors {
                let processor = if matches!(schedule, Schedule::Rising) { place } else { processors - 1 - place };
                while pair.turn(processor)? == 0 {
                    done += 1;
                }
            }
            if done == 0 {
                for message in 0..messages {
                    if pair.ours.status[message as usize] == 1 {
                        done += usize::from(pair.deliver(message)? == 0);
                    }
                }
            }
        }
        Schedule::Greedy => {
            let first = rng.below(plan.processors) as u32;
            for place in 0..processors {
                while pair.turn((first + place) % processors)? == 0 {
                    done += 1;
                }
            }
            let flying: Vec<u32> = (0..messages).filter(|&m| pair.ours.status[m as usize] == 1).collect();
            if !flying.is_empty() {
                done += usize::from(pair.deliver(rng.of(&flying))? == 0);
            }
        }
    }
    Ok(done)
}

/// a large recipe: read, started, and run to the end if that is not too long
fn large(pair: &mut Pair, rng: &mut Rng, plan: &Plan) -> Outcome<()> {
    reading(pair, rng)?;
    let areas = any_state(rng, plan);
    pair.lend(areas);
    for _ in 0..3 {
        pair.any_call(rng)?;
    }
    pair.fresh()?;
    for _ in 0..20 {
        pair.any_call(rng)?;
    }
    if plan.steps() * plan.cells * plan.processors < 40_000_000 {
        run(pair, rng, plan)?;
    }
    large_requests(pair, rng, plan)
}

/// the same by what the engine has of the requests
fn large_requests(pair: &mut Pair, rng: &mut Rng, plan: &Plan) -> Outcome<()> {
    let has = |request| pair.engine.has(request);
    let [offices, soundings, chart] = [Request::Offices, Request::Soundings, Request::Chart].map(has);
    let [hours, rounds, own] = [Request::Hours, Request::Rounds, Request::Own].map(has);
    if offices {
        let rig = offices::any_rig(rng, plan);
        pair.lend_rig(rig);
        for _ in 0..5 {
            offices::one_call(pair, rng)?;
        }
        pair.lend_rig(Rig::default());
    }
    if soundings {
        desk::soundings(pair, rng, plan.cells)?;
    }
    if chart {
        desk::chart(pair, rng, plan.cells)?;
    }
    if hours {
        hours::damaged(pair, rng)?;
    }
    if own {
        own::large(pair, rng, plan)?;
    }
    if rounds && pair.route == Route::Direct {
        rounds::any(pair, rng, plan)?;
    }
    Ok(())
}

/// what is tried on a recipe that is not large
#[derive(Clone, Copy)]
enum Kind {
    Damaged,
    Reading,
    Run,
    States,
    Lengths,
    Swaps,
    Offices,
    Soundings,
    Chart,
    Hours,
    Rounds,
    Own,
}

/// one of the kinds for which the engine has the calls, some more often than others
fn some_kind(rng: &mut Rng, engine: &dyn Engine) -> Kind {
    let always = [
        (3, Kind::Damaged),
        (1, Kind::Reading),
        (2, Kind::Run),
        (3, Kind::States),
        (1, Kind::Lengths),
        (1, Kind::Swaps),
    ];
    let asked = [
        (4, Request::Offices, Kind::Offices),
        (1, Request::Soundings, Kind::Soundings),
        (2, Request::Chart, Kind::Chart),
        (2, Request::Hours, Kind::Hours),
        (1, Request::Rounds, Kind::Rounds),
        (2, Request::Own, Kind::Own),
    ];
    let asked = asked.iter().filter(|&&(_, request, _)| engine.has(request)).map(|&(times, _, kind)| (times, kind));
    let kinds: Vec<Kind> = always.into_iter().chain(asked).flat_map(|(times, kind)| vec![kind; times]).collect();
    rng.of(&kinds)
}

/// one trial, by its seed
pub fn trial(
    seed: u64, engine: &dyn Engine, model: &Model, limits: Limits, tally: &mut Tally,
) -> Result<(), Difference> {
    tally.trials += 1;
    let mut rng = Rng::new(seed);
    let is_large = limits.cells >= 400 && rng.one_in(60);
    let limits = if is_large { Limits { cells: 16384, words: 64 * 16384 } } else { limits };
    let shaped = engine.has(Request::Shapes) && rng.one_in(3);
    let numbers = match (is_large && rng.one_in(2), shaped) {
        (true, _) => recipe::extreme(&mut rng, shaped),
        (false, true) => recipe::shape(&mut rng, limits),
        (false, false) => recipe::random(&mut rng, limits),
    };
    // shapes are for the direct route
    let route = if shaped && !rng.one_in(8) { Route::Direct } else { some_route(&mut rng) };
    let encoded = numbers.bytes();
    let (theirs, ours, their_rig, our_rig, hours, their_parts, our_parts) = Default::default();
    let mut pair =
        Pair { engine, model, tally, encoded, route, theirs, ours, their_rig, our_rig, hours, their_parts, our_parts };
    let plan = pair.plan();
    let counted = |test: &dyn Fn(&Plan) -> bool| u64::from(plan.as_ref().is_some_and(|plan| test(plan)));
    pair.tally.forwarded += counted(&|plan| plan.passes_on_alone());
    pair.tally.shaped += counted(&|_| !numbers.bounds.is_empty());
    pair.tally.shifted += counted(&|plan| plan.messages.iter().any(|message| message.shifted));
    let outcome = match plan {
        None => reading(&mut pair, &mut rng),
        Some(plan) if is_large => large(&mut pair, &mut rng, &plan),
        Some(plan) => match some_kind(&mut rng, engine) {
            Kind::Damaged => damaged(&mut pair, &mut rng, numbers),
            Kind::Reading => reading(&mut pair, &mut rng),
            Kind::Run => run(&mut pair, &mut rng, &plan),
            Kind::States => states(&mut pair, &mut rng, &plan),
            Kind::Lengths => lengths(&mut pair, &mut rng, &plan),
            Kind::Offices => offices::any(&mut pair, &mut rng, &plan),
            Kind::Hours => hours::any(&mut pair, &mut rng, &plan),
            // driven on the direct route
            Kind::Rounds => match model.plan(&pair.encoded, Route::Direct) {
                Ok(plan) => {
                    pair.route = Route::Direct;
                    rounds::any(&mut pair, &mut rng, &plan)
                }
                Err(_) => Ok(()),
            },
            Kind::Own => own::any(&mut pair, &mut rng, &plan),
            Kind::Swaps => swaps::any(&mut pair, &mut rng, &plan),
            Kind::Soundings => desk::soundings(&mut pair, &mut rng, plan.cells),
            Kind::Chart => {
                if !rng.one_in(4) {
                    pair.encoded = recipe::flat(&mut rng, limits, shaped).bytes();
                }
                let plan = model.plan(&pair.encoded, Route::Direct).ok();
                desk::chart(&mut pair, &mut rng, plan.map_or(1, |plan| plan.cells))
            }
        },
    };
    let encoded = pair.encoded;
    outcome.map_err(|(call, detail)| Difference { seed, call, encoded, detail })
}

/// trials from `seed` on, each with the next seed, up to the first difference
pub fn trials(seed: u64, count: u64, engine: &dyn Engine, limits: Limits) -> Result<Tally, (Tally, Box<Difference>)> {
    let model = Model::default();
    let mut tally = Tally::default();
    for n in 0..count {
        let seed = seed.wrapping_add(n);
        // a panic shall name its seed too
        let caught = catch_unwind(AssertUnwindSafe(|| trial(seed, engine, &model, limits, &mut tally)));
        let outcome = caught.unwrap_or_else(|_| {
            let (call, detail) = (engine.name(), "panicked".into());
            Err(Difference { seed, call, encoded: vec![], detail })
        });
        if let Err(difference) = outcome {
            return Err((tally, Box::new(difference)));
        }
    }
    Ok(tally)
}

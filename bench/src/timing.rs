//! Timing, as ratios within one run. The functions compared take turns, a sample of each in a round, so that what
//! else the machine does meets all of them; a ratio is the median over the rounds, a time the best one.

use crate::engine::{Areas, Engine, Progress, Request, Route, SUMMARY_WORDS};
use crate::model::{Model, Plan};
use crate::plain::{PLAIN, WAVEFRONT};
use crate::recipe::{self, Numbers};
use crate::rng::Rng;
use std::hint::black_box;
use std::rc::Rc;
use std::time::{Duration, Instant};

/// a slow comparison ends after this time, once it has this many rounds
const LONGEST: Duration = Duration::from_secs(4);
const LEAST_ROUNDS: usize = 3;

/// nanoseconds of one call of each function, round by round
struct Rounds(Vec<Vec<f64>>);

impl Rounds {
    fn new(functions: &mut [&mut dyn FnMut()], rounds: usize) -> Rounds {
        let timed = |f: &mut dyn FnMut(), times: u32| {
            let start = Instant::now();
            (0..times).for_each(|_| f());
            start.elapsed()
        };
        let enough = |f: &mut dyn FnMut()| {
            let mut times = 1;
            while timed(f, times) < Duration::from_micros(500) {
                times *= 2;
            }
            times
        };
        let times: Vec<u32> = functions.iter_mut().map(|f| enough(*f)).collect();
        let start = Instant::now();
        let mut found: Vec<Vec<f64>> = Vec::new();
        while found.len() < rounds && (found.len() < LEAST_ROUNDS || start.elapsed() < LONGEST) {
            let samples = functions.iter_mut().zip(&times);
            found.push(samples.map(|(f, &times)| timed(*f, times).as_nanos() as f64 / f64::from(times)).collect());
        }
        Rounds(found)
    }

    fn time(&self, function: usize) -> f64 {
        self.0.iter().map(|round| round[function]).fold(f64::INFINITY, f64::min)
    }

    fn ratio(&self, function: usize, to: usize) -> f64 {
        let mut ratios: Vec<f64> = self.0.iter().map(|round| round[function] / round[to]).collect();
        ratios.sort_by(f64::total_cmp);
        ratios[ratios.len() / 2]
    }
}

/// a processor's shared word where it is engaged to no office
const NO_OFFICE: u32 = 2;

/// a recipe with its route, plan, source and areas
struct Case {
    encoded: Vec<u8>,
    route: Route,
    plan: Rc<Plan>,
    areas: Areas,
    grid: Vec<u32>,
    /// where the areas are those of the first of two offices: what it is lent beside them
    engaged: Vec<u32>,
    other: Vec<Progress>,
}

impl Case {
    fn new(numbers: &Numbers) -> Case {
        Case::by(numbers, Route::Direct)
    }

    fn by(numbers: &Numbers, route: Route) -> Case {
        let encoded = numbers.bytes();
        let plan = Model::default().plan(&encoded, route).expect("an accepted recipe");
        let mut rng = Rng::new(1);
        let areas = Areas {
            source: (0..plan.cells).map(|_| rng.word()).collect(),
            memories: vec![0; plan.cells * plan.processors],
            buffer: vec![0; plan.words],
            progress: vec![Progress::default(); plan.processors],
            status: vec![0; plan.messages.len()],
        };
        let grid = vec![0; plan.cells];
        let (engaged, other) = (vec![NO_OFFICE; plan.processors], areas.progress.clone());
        Case { encoded, route, plan, areas, grid, engaged, other }
    }

    fn sweep(&mut self, engine: &dyn Engine) {
        let number = engine.sweep(black_box(&self.encoded), &self.areas.source, &mut self.grid);
        assert_eq!(number, 0);
        black_box(&self.grid);
    }

    /// from a fresh start to collecting: each processor goes as far as it can, then all messages in flight are delivered
    fn whole_run(&mut self, engine: &dyn Engine) {
        let encoded = black_box(&self.encoded);
        let mut steps = 0;
        assert_eq!(engine.fresh(encoded, self.route, &mut self.areas), 0);
        while steps < self.plan.steps() {
            for processor in 0..self.plan.processors {
                while engine.turn(encoded, self.route, &mut self.areas, processor as u32) == 0 {
                    steps += 1;
                }
                for message in 0..self.plan.messages.len() {
                    if self.areas.status[message] == 1 {
                        assert_eq!(engine.deliver(encoded, self.route, &mut self.areas, message as u32), 0);
                        steps += 1;
                    }
                }
            }
        }
        assert_eq!(engine.collect(encoded, self.route, &mut self.areas, &mut self.grid), 0);
        black_box(&self.grid);
    }

    /// the setting of one call at a tile in the middle that takes and sends messages, if there is one
    fn setting(&self, call: Call) -> Option<Setting> {
        let plan = &self.plan;
        let busy = |tile: &usize| !plan.dues[*tile].is_empty() && !plan.sends[*tile].is_empty();
        let tiles: Vec<usize> = (0..plan.cells_of_tile.len()).filter(busy).collect();
        let tile = *tiles.get(tiles.len() / 2)?;
        let processor = plan.processor_of_tile[tile];
        let place = plan.tiles_of_processor[processor].iter().position(|&t| t == tile)?;
        let stage = match call {
            Call::Gather | Call::Waiting => 0,
            Call::Calculate => 1,
            Call::Send | Call::Deliver | Call::NoMail => 2,
        };
        let mark = if call == Call::Waiting { 1 } else { 2 };
        let message = plan.sends[tile][0];
        let mut marks: Vec<(usize, u8)> = plan.dues[tile].iter().map(|&due| (due, mark)).collect();
        marks.push((message, u8::from(call == Call::Deliver)));
        let record = Progress { finished: place as u32, stage, sent: 0 };
        Some(Setting { call, processor: processor as u32, message: message as u32, record, marks })
    }

    /// one call, its record and marks being set before it
    fn call(&mut self, engine: &dyn Engine, setting: &Setting) {
        self.areas.progress[setting.processor as usize] = setting.record;
        setting.marks.iter().for_each(|&(message, mark)| self.areas.status[message] = mark);
        let encoded = black_box(&self.encoded);
        let number = match setting.call {
            Call::Deliver | Call::NoMail => engine.deliver(encoded, self.route, &mut self.areas, setting.message),
            _ => engine.turn(encoded, self.route, &mut self.areas, setting.processor),
        };
        let expected = match setting.call {
            Call::Waiting => 12,
            Call::NoMail => 14,
            _ => 0,
        };
        assert_eq!(number, expected, "{:?}", setting.call);
    }
}

impl Case {
    /// the same turn for the first of two offices, its shared word being set too
    fn tenant_turn(&mut self, engine: &dyn Engine, setting: &Setting) {
        let Setting { processor, record, .. } = *setting;
        self.areas.progress[processor as usize] = record;
        setting.marks.iter().for_each(|&(message, mark)| self.areas.status[message] = mark);
        self.engaged[processor as usize] = if record.stage == 0 { NO_OFFICE } else { 0 };
        let encoded = black_box(&self.encoded);
        let (areas, engaged) = (&mut self.areas, &mut self.engaged);
        assert_eq!(engine.tenant_turn(encoded, self.route, areas, engaged, &self.other, 0, processor), 0);
    }
}

#[derive(Clone, Copy, Debug, PartialEq, Eq)]
enum Call {
    Gather,
    Calculate,
    Send,
    Deliver,
    Waiting,
    NoMail,
}

struct Setting {
    call: Call,
    processor: u32,
    message: u32,
    record: Progress,
    marks: Vec<(usize, u8)>,
}

/// the recipe of the main figures: N 128,128, k 16,16, P 8,0, distances (1,0) (0,1) (1,1)
pub fn reference() -> Numbers {
    Numbers::new(&[[128, 16, 8], [128, 16, 0]], &NEAR)
}

/// the same by each engine, in their order
fn each(numbers: &Numbers, engines: &[&dyn Engine], rounds: usize, what: impl Fn(&mut Case, &dyn Engine)) -> Rounds {
    each_by(numbers, Route::Direct, engines, rounds, what)
}

fn each_by(
    numbers: &Numbers, route: Route, engines: &[&dyn Engine], rounds: usize, what: impl Fn(&mut Case, &dyn Engine),
) -> Rounds {
    let mut cases: Vec<Case> = engines.iter().map(|_| Case::by(numbers, route)).collect();
    let what = &what;
    let functions = cases.iter_mut().zip(engines).map(|(case, engine)| move || what(case, *engine));
    let mut functions: Vec<_> = functions.collect();
    let mut functions: Vec<&mut dyn FnMut()> = functions.iter_mut().map(|f| f as &mut dyn FnMut()).collect();
    Rounds::new(&mut functions, rounds)
}

fn each_call(numbers: &Numbers, engines: &[&dyn Engine], rounds: usize, call: Call) -> Option<Rounds> {
    let setting = Case::new(numbers).setting(call)?;
    Some(each(numbers, engines, rounds, |case, engine| case.call(engine, &setting)))
}

// places in what `sweeps_and_runs` finds
const SWEEP: usize = 0;
const PLAIN_SWEEP: usize = 1;
const WAVEFRONT_SWEEP: usize = 2;
const RUN: usize = 3;
const PLAIN_RUN: usize = 4;

/// sweep on the engine, in plain Rust and by the wavefront, whole run on the engine and in plain Rust
fn sweeps_and_runs(numbers: &Numbers, engine: &dyn Engine, rounds: usize) -> Rounds {
    let mut cases = [(); 5].map(|()| Case::new(numbers));
    let [a, b, c, d, e] = &mut cases;
    let functions: &mut [&mut dyn FnMut()] = &mut [
        &mut || a.sweep(engine),
        &mut || b.sweep(&PLAIN),
        &mut || c.sweep(&WAVEFRONT),
        &mut || d.whole_run(engine),
        &mut || e.whole_run(&PLAIN),
    ];
    Rounds::new(functions, rounds)
}

/// the main figures
fn figures(engine: &dyn Engine, rounds: usize) {
    let numbers = reference();
    let name = engine.name();
    println!("N 128,128, k 16,16, P 8,0, distances (1,0) (0,1) (1,1): {name} against plain Rust\n");
    println!("| what | {name} µs | plain Rust µs | ratio |");
    println!("|---|---|---|---|");
    let line = |label: &str, found: &Rounds, a: usize, b: usize| {
        println!("| {label} | {:.2} | {:.2} | {:.2} |", found.time(a) / 1e3, found.time(b) / 1e3, found.ratio(a, b));
    };
    let found = sweeps_and_runs(&numbers, engine, rounds);
    line("sweep", &found, SWEEP, PLAIN_SWEEP);
    line("whole run", &found, RUN, PLAIN_RUN);
    line("whole run, against the plain sweep", &found, RUN, PLAIN_SWEEP);
    line("whole run in plain Rust, against the plain sweep", &found, PLAIN_RUN, PLAIN_SWEEP);
    let calls = [
        ("turn: gather", Call::Gather),
        ("turn: calculate", Call::Calculate),
        ("turn: send", Call::Send),
        ("turn refused 12", Call::Waiting),
        ("deliver", Call::Deliver),
        ("deliver refused 14", Call::NoMail),
    ];
    let engines = [engine, &PLAIN];
    for (label, call) in calls {
        line(label, &each_call(&numbers, &engines, rounds, call).expect("a tile with messages"), 0, 1);
    }
    let fresh = |case: &mut Case, engine: &dyn Engine| {
        assert_eq!(engine.fresh(black_box(&case.encoded), case.route, &mut case.areas), 0);
    };
    line("fresh start", &each(&numbers, &engines, rounds, fresh), 0, 1);
    let summary = |case: &mut Case, engine: &dyn Engine| {
        assert_eq!(engine.summary(black_box(&case.encoded), case.route, &mut [0; SUMMARY_WORDS]), 0);
    };
    line("summary", &each(&numbers, &engines, rounds, summary), 0, 1);
    println!();
}

/// one line for each recipe of a family
fn growth(title: &str, family: &[(String, Numbers)], engine: &dyn Engine, rounds: usize) {
    println!("Growth with {title}\n");
    println!(
        "| {title} | cells, tiles, messages | sweep µs | to plain | to wavefront | whole run µs | to plain run \
         | to plain sweep | send µs | to plain |"
    );
    println!("|---|---|---|---|---|---|---|---|---|---|");
    for (label, numbers) in family {
        let plan = Case::new(numbers).plan;
        let sizes = format!("{}, {}, {}", plan.cells, plan.cells_of_tile.len(), plan.messages.len());
        let found = sweeps_and_runs(numbers, engine, rounds);
        let time = |at: usize| found.time(at) / 1e3;
        let sweep = format!(
            "{:.1} | {:.2} | {:.2}",
            time(SWEEP),
            found.ratio(SWEEP, PLAIN_SWEEP),
            found.ratio(SWEEP, WAVEFRONT_SWEEP)
        );
        let run =
            format!("{:.1} | {:.2} | {:.2}", time(RUN), found.ratio(RUN, PLAIN_RUN), found.ratio(RUN, PLAIN_SWEEP));
        let send = match each_call(numbers, &[engine, &PLAIN], rounds, Call::Send) {
            Some(send) => format!("{:.2} | {:.2}", send.time(0) / 1e3, send.ratio(0, 1)),
            None => "- | -".into(),
        };
        println!("| {label} | {sizes} | {sweep} | {run} | {send} |");
    }
    println!();
}

/// whole runs by either route, where they differ
fn routes(engine: &dyn Engine, rounds: usize) {
    let name = engine.name();
    println!("Routes: whole runs of {name} against plain Rust\n");
    println!("| recipe | route | messages, words | {name} µs | plain Rust µs | ratio |");
    println!("|---|---|---|---|---|---|");
    for (label, numbers) in corners() {
        for route in [Route::Direct, Route::Indirect] {
            let plan = Case::by(&numbers, route).plan;
            let found = each_by(&numbers, route, &[engine, &PLAIN], rounds, |case, engine| case.whole_run(engine));
            let times = [0, 1].map(|at| found.time(at) / 1e3);
            println!(
                "| {label} | {route:?} | {}, {} | {:.1} | {:.1} | {:.2} |",
                plan.messages.len(),
                plan.words,
                times[0],
                times[1],
                found.ratio(0, 1)
            );
        }
    }
    println!();
}

/// the turns of an office against those of a rig with one office (W-208)
fn offices(engine: &dyn Engine, rounds: usize) {
    if !engine.has(Request::Offices) {
        return;
    }
    println!("Offices: a turn for one of two against a turn where there is one; aim 1.3\n");
    println!("| recipe | turn | two offices µs | one µs | ratio |");
    println!("|---|---|---|---|---|");
    let small = Numbers::new(&[[128, 4, 8], [128, 4, 0]], &NEAR);
    for (label, numbers) in [("N 128,128, k 16,16, P 8,0", reference()), ("the same with k 4,4", small)] {
        for call in [Call::Gather, Call::Calculate, Call::Send] {
            let (mut two, mut one) = (Case::new(&numbers), Case::new(&numbers));
            let setting = one.setting(call).expect("a tile with messages");
            let functions: &mut [&mut dyn FnMut()] =
                &mut [&mut || two.tenant_turn(engine, &setting), &mut || one.call(engine, &setting)];
            let found = Rounds::new(functions, rounds);
            let times = [0, 1].map(|at| found.time(at) / 1e3);
            println!("| {label} | {call:?} | {:.2} | {:.2} | {:.2} |", times[0], times[1], found.ratio(0, 1));
        }
    }
    println!();
}

/// sources from a million soundings against a loop in plain Rust (W-210)
fn soundings(engine: &dyn Engine, rounds: usize) {
    if !engine.has(Request::Soundings) {
        return;
    }
    let name = engine.name();
    println!("Soundings: a million records into N 128,128; aim 1.5\n");
    println!("| records | {name} µs | plain Rust µs | ratio |");
    println!("|---|---|---|---|");
    let encoded = reference().bytes();
    let cells = 128 * 128;
    let mut rng = Rng::new(1);
    let mut file = |cell: &dyn Fn(&mut Rng, usize) -> usize| {
        let record = |place: usize| [cell(&mut rng, place) as u32, rng.word() % 4000, rng.word() % 100, rng.word()];
        (0..1_000_000).flat_map(record).flat_map(u32::to_le_bytes).collect::<Vec<u8>>()
    };
    let files = [
        ("cells at random", file(&|rng, _| rng.below(cells))),
        ("track by track", file(&|_, place| place % cells)),
        ("all in one cell", file(&|_, _| 7)),
    ];
    for (label, file) in files {
        let (mut ours, mut theirs) = (vec![0; cells], vec![0; cells]);
        let fill = |engine: &dyn Engine, source: &mut [u32]| {
            assert_eq!(engine.soundings(black_box(&encoded), black_box(&file), 1, source), 0);
        };
        let functions: &mut [&mut dyn FnMut()] =
            &mut [&mut || fill(engine, &mut ours), &mut || fill(&PLAIN, &mut theirs)];
        let found = Rounds::new(functions, rounds);
        let times = [0, 1].map(|at| found.time(at) / 1e3);
        println!("| {label} | {:.0} | {:.0} | {:.2} |", times[0], times[1], found.ratio(0, 1));
    }
    println!();
}

/// whole runs by rounds, in plain sweeps (W-213)
fn rounds(engine: &dyn Engine, times: usize) {
    if !engine.has(Request::Rounds) {
        return;
    }
    let name = engine.name();
    println!("Rounds: the driver of {name} against a sweep in plain Rust, N 128,128, P 8,0, three distances\n");
    println!("| k | rounds | driver µs | plain sweep µs | ratio | aim |");
    println!("|---|---|---|---|---|---|");
    for (tile, aim) in [(16, 2), (4, 10)] {
        let numbers = Numbers::new(&[[128, tile, 8], [128, tile, 0]], &NEAR);
        let (mut one, mut other, mut told) = (Case::new(&numbers), Case::new(&numbers), [0]);
        let mut drive = || assert_eq!(engine.rounds(black_box(&one.encoded), &mut one.areas, &mut told), 0);
        let functions: &mut [&mut dyn FnMut()] = &mut [&mut drive, &mut || other.sweep(&PLAIN)];
        let found = Rounds::new(functions, times);
        let (ours, plain) = (found.time(0) / 1e3, found.time(1) / 1e3);
        println!("| {tile},{tile} | {} | {ours:.1} | {plain:.1} | {:.2} | {aim} |", told[0], found.ratio(0, 1));
    }
    println!();
}

/// recipes with bounds against their boxes (W-209)
fn shapes(engine: &dyn Engine, rounds: usize) {
    if !engine.has(Request::Shapes) {
        return;
    }
    println!("Shapes: a recipe with bounds against its box; aim 10\n");
    println!("| shape | what | cells | shaped µs | box µs | ratio |");
    println!("|---|---|---|---|---|---|");
    for (label, shaped) in shaped() {
        let boxed = Numbers { bounds: vec![], ..shaped.clone() };
        let cells: usize = Case::new(&shaped).plan.cells_of_tile.iter().map(Vec::len).sum();
        let line = |what: &str, each: &dyn Fn(&mut Case, Option<&Setting>), call: Option<Call>| {
            let (mut one, mut other) = (Case::new(&shaped), Case::new(&boxed));
            let setting = |case: &Case| call.map(|call| case.setting(call).expect("a tile with messages"));
            let settings = [setting(&one), setting(&other)];
            let functions: &mut [&mut dyn FnMut()] =
                &mut [&mut || each(&mut one, settings[0].as_ref()), &mut || each(&mut other, settings[1].as_ref())];
            let found = Rounds::new(functions, rounds);
            let (ours, theirs) = (found.time(0) / 1e3, found.time(1) / 1e3);
            println!("| {label} | {what} | {cells} | {ours:.2} | {theirs:.2} | {:.2} |", found.ratio(0, 1));
        };
        let summary = |case: &mut Case, _: Option<&Setting>| {
            assert_eq!(engine.summary(black_box(&case.encoded), case.route, &mut [0; SUMMARY_WORDS]), 0);
        };
        line("summary", &summary, None);
        line("sweep", &|case, _| case.sweep(engine), None);
        line("whole run", &|case, _| case.whole_run(engine), None);
        for call in [Call::Gather, Call::Calculate, Call::Send, Call::Deliver] {
            line(&format!("{call:?}"), &|case, setting| case.call(engine, setting.expect("of this call")), Some(call));
        }
    }
    println!();
}

/// the shapes that are timed: nothing cut off, a triangle, a band
fn shaped() -> Vec<(String, Numbers)> {
    let square = |tile: u16| Numbers::new(&[[128, tile, 8], [128, tile, 0]], &NEAR);
    let near_of_3: [&[u16]; 4] = [&[1, 0, 0], &[0, 1, 0], &[0, 0, 1], &[1, 1, 1]];
    let three = Numbers::new(&[[16, 4, 4], [16, 4, 2], [16, 4, 0]], &near_of_3);
    let near_of_4: [&[u16]; 5] = [&[1, 0, 0, 0], &[0, 1, 0, 0], &[0, 0, 1, 0], &[0, 0, 0, 1], &[1, 1, 1, 1]];
    let four = Numbers::new(&[[8, 2, 2], [8, 2, 2], [8, 2, 2], [8, 4, 0]], &near_of_4);
    let boxes = [
        ("N 128,128, k 16,16, P 8,0", square(16)),
        ("the same with k 4,4", square(4)),
        ("N 16,16,16, k 4,4,4, P 4,2,0", three),
        ("N 8,8,8,8, k 2,2,2,4, P 2,2,2,0", four),
    ];
    let mut all = vec![];
    for (label, numbers) in boxes {
        let (last, length) = (numbers.dimensions.len() as u8 - 1, numbers.dimensions[0][0] as i16);
        all.push((format!("{label}, the whole box"), numbers.clone().within(&[(1, last, 0, 0, length - 1)])));
        all.push((format!("{label}, a triangle"), numbers.clone().within(&[(1, last, 0, 1, 0)])));
        let band = [(0, last, 0, 1, -length / 8), (1, last, 0, 1, length / 8)];
        all.push((format!("{label}, a band"), numbers.within(&band)));
    }
    all
}

/// recipes whose mail goes round corners
fn corners() -> Vec<(&'static str, Numbers)> {
    let three = Numbers::new(&[[16, 4, 4], [16, 4, 2], [16, 4, 0]], &[&[1, 1, 0], &[2, 1, 1], &[0, 0, 1]]);
    let four =
        Numbers::new(&[[8, 2, 2], [8, 2, 2], [8, 2, 2], [8, 4, 0]], &[&[1, 1, 1, 0], &[0, 1, 1, 1], &[1, 0, 0, 0]]);
    vec![("N 16,16,16, k 4,4,4, P 4,2,0", three), ("N 8,8,8,8, k 2,2,2,4, P 2,2,2,0", four)]
}

/// values alone, against rows one by one and the wavefront: sweeps, and the turns that calculate a tile
fn values(engine: &dyn Engine, rounds: usize) {
    let name = engine.name();
    println!("Values: {name} against plain Rust, row by row and four rows at a time\n");
    println!("| what | {name} µs | plain µs | ratio | wavefront µs | ratio |");
    println!("|---|---|---|---|---|---|");
    let line = |label: String, found: &Rounds| {
        let time = |at: usize| found.time(at) / 1e3;
        let rival = |at: usize| format!("{:.2} | {:.2}", time(at), found.ratio(0, at));
        println!("| {label} | {:.2} | {} | {} |", time(0), rival(1), rival(2));
    };
    let engines = [engine, &PLAIN, &WAVEFRONT];
    for (label, numbers) in sweeps() {
        line(format!("sweep, {label}"), &each(&numbers, &engines, rounds, |case, engine| case.sweep(engine)));
    }
    for tile in [16, 8] {
        let numbers = Numbers::new(&[[128, tile, 8], [128, tile, 0]], &NEAR);
        let found = each_call(&numbers, &engines, rounds, Call::Calculate).expect("a tile with messages");
        line(format!("turn: calculate, N 128,128, k {tile},{tile}, 3 distances"), &found);
    }
    println!();
}

const NEAR: [&[u16]; 3] = [&[1, 0], &[0, 1], &[1, 1]];

/// one step back in each dimension
const UNITS_OF_3: [&[u16]; 3] = [&[1, 0, 0], &[0, 1, 0], &[0, 0, 1]];
const UNITS_OF_4: [&[u16]; 4] = [&[1, 0, 0, 0], &[0, 1, 0, 0], &[0, 0, 1, 0], &[0, 0, 0, 1]];

/// the sweeps of the last table
fn sweeps() -> Vec<(&'static str, Numbers)> {
    let square = [[128, 16, 8], [128, 16, 0]];
    let three = [[16, 8, 2], [32, 8, 2], [32, 8, 0]];
    let four = [[8, 4, 2], [8, 4, 2], [16, 8, 2], [16, 8, 0]];
    vec![
        ("N 128,128, (1,0) (0,1) (1,1)", Numbers::new(&square, &NEAR)),
        ("N 128,128, (1,0) (0,1)", Numbers::new(&square, &NEAR[..2])),
        ("N 128,128, (1,0)", Numbers::new(&square, &[&[1, 0]])),
        ("N 128,128, (0,1)", Numbers::new(&square, &[&[0, 1]])),
        ("N 16,32,32, (1,0,0) (0,1,0) (0,0,1)", Numbers::new(&three, &UNITS_OF_3)),
        ("N 8,8,16,16, (1,0,0,0) (0,1,0,0) (0,0,1,0) (0,0,0,1)", Numbers::new(&four, &UNITS_OF_4)),
    ]
}

fn families() -> Vec<(&'static str, Vec<(String, Numbers)>)> {
    let square = |side: u16, tile: u16| Numbers::new(&[[side, tile, 8], [side, tile, 0]], &NEAR);
    let all: [&[u16]; 8] = [&[1, 0], &[0, 1], &[1, 1], &[2, 0], &[0, 2], &[2, 1], &[1, 2], &[2, 2]];
    let two = [[64, 8, 8], [64, 8, 0]];
    let three = [[16, 4, 4], [16, 4, 2], [16, 4, 0]];
    let four = [[8, 2, 2], [8, 2, 2], [8, 4, 2], [8, 4, 0]];
    vec![
        ("cells", [2, 4, 8, 16].map(|tile| (format!("N {0},{0}", 8 * tile), square(8 * tile, tile))).to_vec()),
        ("tiles", [64, 32, 16, 8, 4].map(|tile| (format!("k {tile},{tile}"), square(128, tile))).to_vec()),
        (
            "distances",
            [1, 2, 3, 4, 6, 8]
                .map(|d| (format!("{d}"), Numbers { distances: Numbers::new(&[], &all[..d]).distances, ..reference() }))
                .to_vec(),
        ),
        (
            "dimensions",
            vec![
                ("2".into(), Numbers::new(&two, &NEAR)),
                ("3".into(), Numbers::new(&three, &NEAR)),
                ("4".into(), Numbers::new(&four, &NEAR)),
            ],
        ),
        // where a sweep is slowest beside plain Rust, and what a run costs at the limits of cells, tiles and processors
        (
            "short rows",
            vec![
                ("N 64,64,4".into(), Numbers::new(&[[64, 8, 4], [64, 8, 2], [4, 4, 0]], &UNITS_OF_3)),
                ("N 16,16,16,4".into(), Numbers::new(&[[16, 4, 2], [16, 4, 2], [16, 4, 2], [4, 4, 0]], &UNITS_OF_4)),
                ("at the limits".into(), recipe::slowest()),
            ],
        ),
    ]
}

/// all tables; fewer rounds where `quick`
pub fn report(engine: &dyn Engine, quick: bool) {
    let rounds = if quick { 9 } else { 101 };
    figures(engine, rounds);
    for (title, family) in families() {
        growth(title, &family, engine, rounds / 3);
    }
    routes(engine, rounds / 3);
    values(engine, rounds);
    offices(engine, rounds);
    shapes(engine, rounds / 3);
    soundings(engine, rounds / 3);
    self::rounds(engine, rounds);
}

#[cfg(test)]
mod tests {
    use super::*;

    #[test]
    fn every_case_runs() {
        let recipes = families().into_iter().flat_map(|(_, family)| family).map(|(_, numbers)| numbers);
        let recipes = recipes.chain(sweeps().into_iter().chain(corners()).map(|(_, numbers)| numbers));
        for (numbers, route) in
            recipes.flat_map(|numbers| [(numbers.clone(), Route::Direct), (numbers, Route::Indirect)])
        {
            let mut case = Case::by(&numbers, route);
            case.sweep(&Model::default());
            let expected = case.grid.clone();
            for engine in [&PLAIN, &WAVEFRONT] {
                case.whole_run(engine);
                assert!(case.grid == expected);
                case.grid.fill(0);
                case.sweep(engine);
                assert!(case.grid == expected);
            }
        }
    }

    #[test]
    fn every_shape_runs() {
        let model = Model::default();
        for (label, numbers) in shaped() {
            let mut case = Case::new(&numbers);
            for call in [Call::Gather, Call::Calculate, Call::Send, Call::Deliver] {
                let setting = case.setting(call).expect("a tile with messages");
                case.call(&model, &setting);
                case.areas.progress[setting.processor as usize] = Progress::default();
            }
            if !label.starts_with("the same") {
                case.whole_run(&model);
                let grid = case.grid.clone();
                case.sweep(&model);
                assert!(case.grid == grid, "{label}");
            }
        }
    }

    #[test]
    fn every_call_has_its_number() {
        let mut case = Case::new(&reference());
        for call in [Call::Gather, Call::Calculate, Call::Send, Call::Deliver, Call::Waiting, Call::NoMail] {
            let setting = case.setting(call).unwrap();
            case.call(&PLAIN, &setting);
            case.call(&PLAIN, &setting);
            if matches!(call, Call::Gather | Call::Calculate | Call::Send) {
                case.tenant_turn(&Model::default(), &setting);
            }
            // both offices' other records are at their start
            case.areas.progress[setting.processor as usize] = Progress::default();
            case.engaged.fill(NO_OFFICE);
        }
    }
}

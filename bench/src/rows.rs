//! The models held to what document 01 prints: rows A to H, the printer's lines, the values of D.

use crate::differ;
use crate::engine::{Areas, Engine, Part, Progress, Request, Rig, Route};
use crate::model::Model;
use crate::naive::{Naive, FAULTS};
use crate::plain::{PLAIN, WAVEFRONT};
use crate::recipe::{Limits, Numbers};

/// the rows of document 01, "Recipes to be met"
fn row(letter: char) -> Numbers {
    let line = |length, tile, spread, rest| Numbers::new(&[[length, tile, spread], [rest, 1, 0]], &[&[1, 0]]);
    match letter {
        'A' => Numbers::new(&[[8, 2, 2], [8, 2, 0]], &[&[1, 0], &[0, 1], &[1, 1]]),
        'B' => Numbers::new(&[[8, 4, 2], [8, 4, 0]], &[&[2, 1]]),
        'C' => Numbers::new(&[[8, 4, 2], [8, 4, 2], [8, 4, 0]], &[&[2, 1, 0]]),
        'D' => line(4, 2, 2, 1),
        'E' => line(5, 2, 2, 1),
        'F' => line(1, 2, 2, 2),
        'G' => line(4, 1, 2, 1),
        'H' => line(4, 2, 1, 1),
        _ => panic!("rows A to H"),
    }
}

fn cells(numbers: &Numbers) -> usize {
    numbers.dimensions.iter().map(|d| usize::from(d[0])).product()
}

fn processors(numbers: &Numbers) -> usize {
    numbers.dimensions.iter().map(|d| usize::from(d[2]).max(1)).product()
}

#[cfg_attr(not(feature = "library"), allow(unused_mut))]
fn engines() -> Vec<Box<dyn Engine>> {
    let mut engines: Vec<Box<dyn Engine>> =
        vec![Box::new(Model::default()), Box::new(Naive::default()), Box::new(PLAIN), Box::new(WAVEFRONT)];
    #[cfg(feature = "library")]
    engines.push(Box::new(crate::library::Library));
    engines
}

fn totals_by(engine: &dyn Engine, numbers: &Numbers, route: Route) -> Result<[u32; 4], u32> {
    let mut out = [0; 4];
    match engine.summary(&numbers.bytes(), route, &mut out) {
        0 => Ok(out),
        number => Err(number),
    }
}

fn totals(engine: &dyn Engine, numbers: &Numbers) -> Result<[u32; 4], u32> {
    totals_by(engine, numbers, Route::Direct)
}

/// the lines of all messages on a route
fn lines(engine: &dyn Engine, numbers: &Numbers, route: Route) -> Vec<[u32; 5]> {
    let line = |message| {
        let mut out = [0; 5];
        assert_eq!(engine.message(&numbers.bytes(), route, message, &mut out), 0);
        out
    };
    (0..totals_by(engine, numbers, route).unwrap()[1]).map(line).collect()
}

/// the hops of all direct messages
fn hops(engine: &dyn Engine, numbers: &Numbers) -> Vec<u32> {
    let hops = |message| {
        let mut out = [0];
        assert_eq!(engine.hops(&numbers.bytes(), message, &mut out), 0);
        out[0]
    };
    (0..totals(engine, numbers).unwrap()[1]).map(hops).collect()
}

fn areas(numbers: &Numbers, totals: [u32; 4]) -> Areas {
    Areas {
        source: vec![1; cells(numbers)],
        memories: vec![9; cells(numbers) * processors(numbers)],
        buffer: vec![9; totals[2] as usize],
        progress: vec![Progress { finished: 9, stage: 9, sent: 9 }; processors(numbers)],
        status: vec![9; totals[1] as usize],
    }
}

#[test]
fn totals_of_the_rows() {
    for engine in engines() {
        let rows = [
            ('A', Ok([16, 12, 24, 56])),
            ('B', Ok([4, 2, 14, 12])),
            ('C', Ok([8, 10, 144, 36])),
            ('D', Ok([2, 1, 1, 6])),
            ('E', Ok([3, 2, 2, 10])),
            ('F', Ok([2, 0, 0, 4])),
            ('G', Ok([4, 3, 3, 14])),
            ('H', Ok([2, 0, 0, 4])),
        ];
        for (letter, expected) in rows {
            assert_eq!(totals(&*engine, &row(letter)), expected, "row {letter}, {}", engine.name());
        }
    }
}

#[test]
fn message_lines() {
    for engine in engines() {
        let line = |letter, message| {
            let mut out = [9; 5];
            let number = engine.message(&row(letter).bytes(), Route::Direct, message, &mut out);
            (number, out)
        };
        assert_eq!(line('B', 0), (0, [0, 2, 0, 1, 8]), "{}", engine.name());
        assert_eq!(line('B', 1), (0, [1, 3, 0, 1, 6]), "{}", engine.name());
        assert_eq!(line('B', 2), (11, [0; 5]), "{}", engine.name());
        assert_eq!(line('D', 0), (0, [0, 1, 0, 1, 1]), "{}", engine.name());
        assert_eq!(line('G', 1), (0, [1, 2, 1, 0, 1]), "{}", engine.name());
    }
}

#[test]
fn tiles_as_long_as_the_reach() {
    for engine in engines() {
        let side = |tile| Numbers::new(&[[4, tile, 2], [4, 2, 0]], &[&[2, 2]]);
        // tile 0's cells are all read by tile 3, none by tile 2, which takes the message
        assert_eq!(totals(&*engine, &side(2)), Ok([4, 1, 4, 10]), "{}", engine.name());
        assert_eq!(lines(&*engine, &side(2), Route::Direct), [[0, 2, 0, 1, 4]], "{}", engine.name());
        assert_eq!(totals(&*engine, &side(1)), Err(6), "{}", engine.name());
    }
}

#[test]
fn counts_told_exactly() {
    for engine in engines() {
        let number = |counts: &[u16]| {
            let dimensions: Vec<[u16; 3]> = counts.iter().map(|&count| [4, 2, count]).collect();
            totals(&*engine, &Numbers::new(&dimensions, &[&[1, 0]])).err().unwrap_or(0)
        };
        let expected: [(&[u16], u32); 14] = [
            (&[0, 0], 16),
            (&[0, 1], 16),
            (&[0, 2], 16),
            (&[2, 0, 2], 16),
            (&[1, 0, 1], 16),
            (&[65, 0, 2, 0], 16),
            (&[1, 1], 17),
            (&[2, 2], 17),
            (&[65, 65], 17),
            (&[1, 0], 0),
            (&[2, 1, 0], 0),
            (&[65, 0], 7),
            (&[13, 5, 0], 7),
            (&[8, 8, 0], 0),
        ];
        for (counts, wanted) in expected {
            assert_eq!(number(counts), wanted, "{counts:?}, {}", engine.name());
        }
    }
}

#[test]
fn rows_on_the_indirect_route() {
    for engine in engines() {
        let name = engine.name();
        let of_c = row('C');
        assert_eq!(totals_by(&*engine, &of_c, Route::Indirect), Ok([8, 8, 160, 32]), "{name}");
        // dimension one before dimension two; tiles 4 and 5 pass on the corner cells of tiles 0 and 1
        let expected = [
            [0, 4, 0, 2, 32],
            [0, 2, 0, 1, 8],
            [1, 5, 0, 2, 32],
            [1, 3, 0, 1, 8],
            [2, 6, 1, 3, 24],
            [3, 7, 1, 3, 24],
            [4, 6, 2, 3, 16],
            [5, 7, 2, 3, 16],
        ];
        assert_eq!(lines(&*engine, &of_c, Route::Indirect), expected, "{name}");
        assert_eq!(hops(&*engine, &of_c), [1, 1, 2, 1, 1, 2, 1, 1, 1, 1], "{name}");
        for letter in ['A', 'B', 'D', 'E', 'F', 'G', 'H'] {
            let both = [Route::Direct, Route::Indirect].map(|route| lines(&*engine, &row(letter), route));
            assert!(both[0] == both[1], "row {letter} has one spread dimension, {name}");
            assert!(hops(&*engine, &row(letter)).iter().all(|&hops| hops == 1), "row {letter}, {name}");
        }
        let many = Numbers::new(&[[4, 2, 65], [1, 1, 0]], &[&[1, 0]]);
        assert_eq!(totals_by(&*engine, &many, Route::Indirect), Err(7), "{name}");
    }
}

#[test]
fn forwarded_cells_alone() {
    for engine in engines() {
        let square = |side, reach: u16| Numbers::new(&[[side, 2, 2], [4, 2, 2], [1, 1, 0]], &[&[reach, reach, 0]]);
        // a short edge tile: (1, 0, 0) sends only the corner cell of (0, 0, 0) on
        let expected = [[0, 2, 0, 2, 2], [0, 1, 0, 1, 1], [1, 3, 1, 3, 1], [2, 3, 2, 3, 1]];
        assert_eq!(lines(&*engine, &square(3, 1), Route::Indirect), expected, "{}", engine.name());
        // tiles as long as the reach: full tiles pass on, and there are more messages than on the direct route
        assert_eq!(lines(&*engine, &square(4, 2), Route::Direct), [[0, 3, 0, 3, 4]], "{}", engine.name());
        let expected = [[0, 2, 0, 2, 4], [2, 3, 2, 3, 4]];
        assert_eq!(lines(&*engine, &square(4, 2), Route::Indirect), expected, "{}", engine.name());
        assert_eq!(hops(&*engine, &square(4, 2)), [2], "{}", engine.name());
    }
}

#[test]
fn hops_are_refused() {
    for engine in engines() {
        let call = |letter, message| {
            let mut out = [7];
            let number = engine.hops(&row(letter).bytes(), message, &mut out);
            assert!(number == 0 || out == [0]);
            number
        };
        assert_eq!([call('C', 9), call('C', 10), call('C', u32::MAX)], [0, 11, 11], "{}", engine.name());
        assert_eq!(call('F', 0), 11, "{}", engine.name());
        let many = Numbers::new(&[[4, 2, 65], [1, 1, 0]], &[&[1, 0]]);
        assert_eq!(engine.hops(&many.bytes(), 0, &mut [7]), 7, "{}", engine.name());
    }
}

#[test]
fn one_processor_in_a_spread_dimension() {
    for engine in engines() {
        let name = engine.name();
        let square = |first, second| Numbers::new(&[[4, 2, first], [4, 2, second], [1, 1, 0]], &[&[1, 1, 0]]);
        let plan = |numbers: &Numbers| {
            let by = |route| lines(&*engine, numbers, route);
            (by(Route::Direct), by(Route::Indirect), hops(&*engine, numbers))
        };
        // tile 2 passes on the corner cell of tile 0 along dimension two: its processor has it
        let direct = vec![[0, 1, 0, 1, 1], [0, 3, 0, 1, 1], [2, 3, 0, 1, 1]];
        let indirect = vec![[0, 1, 0, 1, 1], [2, 3, 0, 1, 2]];
        assert_eq!(plan(&square(1, 2)), (direct, indirect, vec![1, 1, 1]), "{name}");
        let direct = vec![[0, 2, 0, 1, 1], [0, 3, 0, 1, 1], [1, 3, 0, 1, 1]];
        let indirect = vec![[0, 2, 0, 1, 2], [1, 3, 0, 1, 1]];
        assert_eq!(plan(&square(2, 1)), (direct, indirect, vec![1, 1, 1]), "{name}");
        assert_eq!(plan(&square(1, 1)), (vec![], vec![], vec![]), "{name}");
        // three spread dimensions, the middle one with one processor: the corner takes two hops
        let numbers = Numbers::new(&[[2, 1, 2], [2, 1, 1], [2, 1, 2], [1, 1, 0]], &[&[1, 1, 1, 0]]);
        assert_eq!(plan(&numbers), (vec![[0, 7, 0, 3, 1]], vec![[0, 4, 0, 2, 1], [6, 7, 2, 3, 1]], vec![2]), "{name}");
        for numbers in [square(1, 2), square(2, 1), square(1, 1), numbers, row('H')] {
            runs_to_the_sweep(&*engine, &numbers, Route::Direct);
            runs_to_the_sweep(&*engine, &numbers, Route::Indirect);
        }
    }
}

#[test]
fn distances_of_two_bytes() {
    for engine in engines() {
        let name = engine.name();
        // 100 cells of the first tile are read 300 further on
        let channel = Numbers::new(&[[400, 300, 2], [1, 1, 0]], &[&[300, 0]]);
        assert_eq!(lines(&*engine, &channel, Route::Direct), [[0, 1, 0, 1, 100]], "{name}");
        let mut grid = [0; 400];
        assert_eq!(engine.sweep(&channel.bytes(), &[1; 400], &mut grid), 0, "{name}");
        assert!(grid[..300].iter().all(|&word| word == 1) && grid[300..].iter().all(|&word| word == 2), "{name}");
        // the record's bytes, a component at a time; where all fit one byte it is 18, before 5
        let number = |components: [u16; 4]| {
            let mut bytes = Numbers::new(&[[8, 1024, 2], [8, 8, 0]], &[&[300, 0], &[1, 0]]).bytes();
            for (j, component) in components.iter().enumerate() {
                bytes[34 + 2 * j..36 + 2 * j].copy_from_slice(&component.to_le_bytes());
            }
            engine.summary(&bytes, Route::Direct, &mut [0; 4])
        };
        let numbers =
            [[256, 0, 0, 0], [255, 0, 0, 0], [0; 4], [1, 0, 0, 0], [1, 0, 300, 0], [1025, 0, 0, 0]].map(number);
        assert_eq!(numbers, [0, 18, 18, 18, 5, 6], "{name}");
        for (count, expected) in [(8, 0), (9, 2)] {
            let distances: Vec<[u16; 2]> = (0..count).map(|x| [252 + x, 0]).collect();
            let distances: Vec<&[u16]> = distances.iter().map(|distance| &distance[..]).collect();
            let numbers = Numbers::new(&[[8, 1024, 2], [8, 8, 0]], &distances);
            assert_eq!(totals(&*engine, &numbers).err().unwrap_or(0), expected, "{name}");
        }
    }
}

#[test]
fn row_d_by_hand() {
    for engine in engines() {
        let numbers = row('D');
        let encoded = numbers.bytes();
        let mut areas = areas(&numbers, totals(&*engine, &numbers).unwrap());
        assert_eq!(engine.turn(&encoded, Route::Direct, &mut areas, 0), 10);
        assert_eq!(engine.fresh(&encoded, Route::Direct, &mut areas), 0);
        assert_eq!(engine.turn(&encoded, Route::Direct, &mut areas, 1), 12);
        assert_eq!(engine.deliver(&encoded, Route::Direct, &mut areas, 0), 14);
        for _ in 0..3 {
            assert_eq!(engine.turn(&encoded, Route::Direct, &mut areas, 0), 0);
        }
        assert_eq!(areas.buffer, [2]);
        assert_eq!(engine.turn(&encoded, Route::Direct, &mut areas, 0), 13);
        assert_eq!(engine.turn(&encoded, Route::Direct, &mut areas, 1), 12);
        assert_eq!(engine.deliver(&encoded, Route::Direct, &mut areas, 1), 11);
        assert_eq!(engine.deliver(&encoded, Route::Direct, &mut areas, 0), 0);
        assert_eq!(engine.turn(&encoded, Route::Direct, &mut areas, 1), 0);
        let mut grid = [9; 4];
        assert_eq!(engine.collect(&encoded, Route::Direct, &mut areas, &mut grid), 15);
        assert_eq!(grid, [9; 4]);
        assert_eq!(engine.turn(&encoded, Route::Direct, &mut areas, 1), 0);
        assert_eq!(engine.turn(&encoded, Route::Direct, &mut areas, 2), 11);
        assert_eq!(engine.collect(&encoded, Route::Direct, &mut areas, &mut grid), 0);
        assert_eq!(grid, [1, 2, 3, 4]);
        assert_eq!(areas.status, [3]);
    }
}

#[test]
fn row_f_has_an_idle_processor() {
    for engine in engines() {
        let numbers = row('F');
        let mut areas = areas(&numbers, totals(&*engine, &numbers).unwrap());
        assert_eq!(engine.fresh(&numbers.bytes(), Route::Direct, &mut areas), 0);
        assert_eq!(engine.turn(&numbers.bytes(), Route::Direct, &mut areas, 1), 13);
    }
}

#[test]
fn border_of_line_4() {
    let side = |last| Numbers::new(&[[128, 16, 8], [last, 16, 0]], &[&[1, 0]]);
    for engine in engines() {
        assert_eq!(totals(&*engine, &side(129)), Err(4));
    }
    for engine in quick_engines() {
        assert!(totals(&*engine, &side(128)).is_ok());
    }
}

/// a run to its end by a route; the grid is the sweep's
fn runs_to_the_sweep(engine: &dyn Engine, numbers: &Numbers, route: Route) {
    let encoded = numbers.bytes();
    let totals = totals_by(engine, numbers, route).unwrap();
    let mut areas = areas(numbers, totals);
    assert_eq!(engine.fresh(&encoded, route, &mut areas), 0);
    let mut steps = 0;
    loop {
        let before = steps;
        for processor in 0..processors(numbers) as u32 {
            while engine.turn(&encoded, route, &mut areas, processor) == 0 {
                steps += 1;
            }
        }
        for message in 0..totals[1] {
            steps += u32::from(engine.deliver(&encoded, route, &mut areas, message) == 0);
        }
        if steps == before {
            break;
        }
    }
    assert_eq!(steps, totals[3]);
    let (mut grid, mut swept) = (vec![0; cells(numbers)], vec![0; cells(numbers)]);
    assert_eq!(engine.collect(&encoded, route, &mut areas, &mut grid), 0);
    assert_eq!(engine.sweep(&encoded, &vec![1; cells(numbers)], &mut swept), 0);
    assert_eq!(grid, swept);
}

#[test]
fn rows_run_to_the_sweep() {
    for engine in engines() {
        for route in [Route::Direct, Route::Indirect] {
            runs_to_the_sweep(&*engine, &row('A'), route);
            runs_to_the_sweep(&*engine, &row('G'), route);
        }
    }
    for engine in quick_engines() {
        for route in [Route::Direct, Route::Indirect] {
            runs_to_the_sweep(&*engine, &row('C'), route);
        }
    }
}

#[test]
fn sum_is_divided_before_it_is_cut() {
    for engine in engines() {
        // 65,535 × (2^32 - 1) + 7, divided by 2^20, cut to 32 bits
        let numbers = Numbers { distances: vec![([1, 0, 0, 0], 65535)], shift: 20, boundary: u32::MAX, ..row('D') };
        let mut grid = [0; 4];
        assert_eq!(engine.sweep(&numbers.bytes(), &[7; 4], &mut grid), 0);
        assert_eq!(grid[0], ((65535 * u64::from(u32::MAX) + 7) >> 20) as u32);
    }
}

/// a stored file of the repository
fn stored(name: &str) -> Vec<u8> {
    let path = std::path::Path::new(env!("CARGO_MANIFEST_DIR")).join("../crates").join(name);
    std::fs::read(&path).unwrap_or_else(|error| panic!("{}: {error}", path.display()))
}

/// what the program `cases` prints for one of its files: the numbers of file 0, then of each file from `case 0` on
fn expected(file: usize) -> String {
    let text = String::from_utf8(stored("cases/stdout")).expect("text");
    let parts: Vec<&str> = text.split("case 0\n").collect();
    assert_eq!(parts.len(), 4, "the files of cases");
    if file == 0 {
        parts[0].to_string()
    } else {
        format!("case 0\n{}", parts[file])
    }
}

/// all but the naive model, which takes long over large recipes
fn quick_engines() -> impl Iterator<Item = Box<dyn Engine>> {
    engines().into_iter().filter(|engine| engine.name() != "naive")
}

/// what the plan printer writes for a recipe; on the indirect route its figures and lines, and the hops
fn printed(engine: &dyn Engine, encoded: &[u8], route: Route) -> String {
    let mut out = [0; 4];
    let number = |route, out: &mut [u32; 4]| if encoded.len() > 512 { 1 } else { engine.summary(encoded, route, out) };
    let mut text = match number(route, &mut out) {
        0 => format!("tiles {} messages {} words {} steps {}\n", out[0], out[1], out[2], out[3]),
        number => format!("refused {number}\n"),
    };
    for message in 0..out[1] {
        let mut line = [0; 5];
        assert_eq!(engine.message(encoded, route, message, &mut line), 0);
        text += &format!("{message} {}\n", line.map(|number| number.to_string()).join(" "));
    }
    // the hops are the direct plan's, and of a shape they are told though its indirect plan is refused
    if route == Route::Indirect && number(Route::Direct, &mut out) == 0 {
        text += "hops";
        for message in 0..out[1] {
            let mut hops = [0];
            assert_eq!(engine.hops(encoded, message, &mut hops), 0);
            text += &format!(" {}", hops[0]);
        }
        text += "\n";
    }
    text
}

/// Is a case for an engine? One with a record of kind 5 is for those that know shapes.
fn is_for(engine: &dyn Engine, encoded: &[u8]) -> bool {
    engine.has(Request::Shapes) || encoded.chunks(16).all(|record| record[0] != 5)
}

/// The stored cases come from the models in tools/, which share nothing with those here.
#[test]
fn stored_plans() {
    let (cases, expected) = (stored("cases/data/plans"), expected(1));
    for engine in quick_engines() {
        let (mut rest, mut wanted, mut number) = (&cases[..], &expected[..], 0);
        while let [low, high, tail @ ..] = rest {
            // the highest bit of the length is the route
            let (encoded, tail) = tail.split_at(usize::from(*low) + 256 * usize::from(*high & 127));
            let route = if *high < 128 { Route::Direct } else { Route::Indirect };
            let end = wanted.find(&format!("case {}\n", number + 1)).unwrap_or(wanted.len());
            if is_for(&*engine, encoded) {
                let text = format!("case {number}\n{}", printed(&*engine, encoded, route));
                assert!(text == wanted[..end], "case {number}, {}", engine.name());
            }
            (rest, wanted, number) = (tail, &wanted[end..], number + 1);
        }
        assert!(wanted.is_empty(), "{}", engine.name());
    }
}

#[test]
fn stored_recipes() {
    let (cases, expected) = (stored("cases/data/numbers"), expected(0));
    for engine in quick_engines() {
        let (mut rest, mut wanted) = (&cases[..], expected.lines());
        while let [label, tail @ ..] = rest {
            let (label, tail) = tail.split_at(usize::from(*label));
            let (encoded, tail) = tail[2..].split_at(usize::from(tail[0]) + 256 * usize::from(tail[1]));
            // the figures alone: no area has to fit
            let number = engine.summary(encoded, Route::Direct, &mut [7; 4]);
            let line = format!("{} {number}", String::from_utf8_lossy(label));
            let wanted = wanted.next().unwrap_or("");
            assert!(line == wanted || !is_for(&*engine, encoded), "{line}, {}", engine.name());
            rest = tail;
        }
        assert!(wanted.next().is_none(), "{}", engine.name());
    }
}

/// those engines that have what a request asks for
fn engines_with(request: Request) -> impl Iterator<Item = Box<dyn Engine>> {
    engines().into_iter().filter(move |engine| engine.has(request))
}

#[test]
fn shapes_in_their_box() {
    for engine in engines_with(Request::Shapes) {
        let name = engine.name();
        // a triangle: the last component at most the first
        let triangle = Numbers::new(&[[3, 1, 2], [3, 1, 0]], &[&[1, 0]]).within(&[(1, 1, 0, 1, 0)]);
        let triangle = Numbers { boundary: 7, ..triangle };
        assert_eq!(totals(&*engine, &triangle), Ok([6, 3, 3, 18]), "{name}");
        let expected = [[0, 1, 0, 1, 1], [1, 3, 1, 0, 1], [2, 4, 1, 0, 1]];
        assert_eq!(lines(&*engine, &triangle, Route::Direct), expected, "{name}");
        let mut grid = [0; 9];
        assert_eq!(engine.sweep(&triangle.bytes(), &[1; 9], &mut grid), 0, "{name}");
        assert_eq!(grid, [8, 7, 7, 9, 8, 7, 10, 9, 8], "{name}");
        // tile (1, 0) holds no cell: the next one of its column takes the message
        let cut = Numbers::new(&[[2, 1, 2], [3, 1, 0]], &[&[1, 1]]).within(&[(0, 1, 0, 1, 0)]);
        assert_eq!(lines(&*engine, &cut, Route::Direct), [[0, 3, 0, 1, 1], [1, 3, 0, 1, 1]], "{name}");
        assert_eq!(hops(&*engine, &cut), [1, 1], "{name}");
        // one cell is left, and one processor has no tile
        let one = row('D').within(&[(0, 1, 0, 1, 0), (1, 1, 0, -1, 0)]);
        assert_eq!(totals(&*engine, &one), Ok([1, 0, 0, 2]), "{name}");
        for numbers in [triangle, cut, one] {
            runs_to_the_sweep(&*engine, &numbers, Route::Direct);
        }
    }
}

#[test]
fn shapes_are_refused() {
    for engine in engines_with(Request::Shapes) {
        let number = |bounds: &[(u8, u8, u8, i8, i16)], route| {
            totals_by(&*engine, &row('A').within(bounds), route).err().unwrap_or(0)
        };
        let direct = |bounds: &[(u8, u8, u8, i8, i16)]| number(bounds, Route::Direct);
        let nothing = (0, 1, 0, 0, -32768);
        assert_eq!(direct(&[nothing; 4]), 0, "{}", engine.name());
        assert_eq!(direct(&[nothing; 5]), 2, "{}", engine.name());
        assert_eq!(number(&[nothing], Route::Indirect), 21, "{}", engine.name());
        let faulty = [(2, 1, 0, 0, 0), (0, 0, 0, 0, 0), (0, 2, 0, 0, 0), (0, 1, 1, 0, 0), (0, 1, 0, 2, 0)];
        for bound in faulty {
            assert_eq!(direct(&[bound]), 2, "{bound:?}, {}", engine.name());
        }
        let gone = [[(0, 1, 0, 0, 8)], [(1, 1, 0, 1, -8)], [(1, 1, 0, -1, -1)]];
        assert_eq!(gone.map(|bounds| direct(&bounds)), [20; 3], "{}", engine.name());
        // 20 before 5, and before 21
        let none = Numbers { distances: vec![([0; 4], 1)], ..row('A') }.within(&[(0, 1, 0, 0, 8)]);
        assert_eq!(totals_by(&*engine, &none, Route::Indirect), Err(20), "{}", engine.name());
        // bytes that a bound does not name, and its place behind the dimensions
        let bytes = row('A').within(&[nothing]).bytes();
        for at in [5, 8, 15] {
            let mut bytes = bytes.clone();
            bytes[32 + at] = 1;
            assert_eq!(engine.summary(&bytes, Route::Direct, &mut [0; 4]), 2, "{}", engine.name());
        }
        let mut late = bytes.clone();
        (0..16).for_each(|at| late.swap(32 + at, 48 + at));
        assert_eq!(engine.summary(&late, Route::Direct, &mut [0; 4]), 2, "{}", engine.name());
    }
}

/// any number of messages may be due at one tile
#[test]
fn many_due_at_one_tile() {
    let sides = [[2, 1, 2], [2, 1, 0], [11, 1, 0], [31, 1, 0]];
    let numbers = Numbers::new(&sides, &[&[1, 1, 0, 0]]).within(&[(0, 1, 0, 1, 0)]);
    for engine in quick_engines().filter(|engine| engine.has(Request::Shapes)) {
        assert_eq!(totals(&*engine, &numbers), Ok([1023, 341, 341, 2728]), "{}", engine.name());
        let lines = lines(&*engine, &numbers, Route::Direct);
        assert!(lines.iter().all(|line| line[1] == lines[0][1]), "{}", engine.name());
        runs_to_the_sweep(&*engine, &numbers, Route::Direct);
    }
    // the box has more tiles than are allowed, the shape has not
    for (offset, expected) in [(1, Ok([1024, 992, 992, 4032])), (0, Err(8))] {
        let numbers = Numbers::new(&[[32, 1, 2], [33, 1, 0]], &[&[1, 0]]).within(&[(0, 1, 0, 0, offset)]);
        for engine in quick_engines().filter(|engine| engine.has(Request::Shapes)) {
            assert_eq!(totals(&*engine, &numbers), expected, "{}", engine.name());
        }
    }
}

#[test]
fn soundings_fill_the_source() {
    for engine in engines_with(Request::Soundings) {
        let name = engine.name();
        let fill = |records: &[[u32; 4]], tail: usize, length: usize| {
            let mut file: Vec<u8> = records.iter().flatten().flat_map(|word| word.to_le_bytes()).collect();
            file.extend(vec![0; tail]);
            let mut source = vec![9; length];
            let number = engine.soundings(&row('D').bytes(), &file, 5, &mut source);
            (number, source)
        };
        assert_eq!(fill(&[], 0, 4), (0, vec![5; 4]), "{name}");
        // the greatest day, then the greatest survey, then the latest in the file
        let records = [[0, 2, 1, 10], [0, 1, 9, 11], [1, 3, 4, 12], [1, 3, 5, 13], [2, 6, 6, 14], [2, 6, 6, 15]];
        assert_eq!(fill(&records, 0, 4), (0, vec![10, 13, 15, 5]), "{name}");
        let late = [[3, 1 << 31, 0, 16], [3, (1 << 31) - 1, 7, 17], [0, 0, u32::MAX, 18], [0, 0, 1, 19]];
        assert_eq!(fill(&late, 0, 4), (0, vec![18, 5, 5, 16]), "{name}");
        assert_eq!(fill(&records, 3, 4), (1, vec![9; 4]), "{name}");
        assert_eq!(fill(&[[0, 1, 1, 1], [4, 0, 0, 0]], 0, 4), (22, vec![9; 4]), "{name}");
        assert_eq!(fill(&[[4, 0, 0, 0]], 0, 5), (9, vec![9; 5]), "{name}");
        // a ragged file in the line of a ragged recipe
        let refused = |tail| engine.soundings(&row('D').bytes()[..16], &vec![0; tail], 5, &mut [0; 4]);
        assert_eq!([refused(1), refused(16)], [1, 2], "{name}");
    }
}

#[test]
fn grid_for_the_charting_desk() {
    for engine in engines_with(Request::Chart) {
        let name = engine.name();
        let numbers = Numbers::new(&[[2, 1, 2], [3, 1, 0]], &[&[1, 0]]);
        let chart = |numbers: &Numbers, grid: &[u32], size: u32, length: usize| {
            let (mut space, mut told) = (vec![b'#'; length], [7]);
            let number = engine.chart(&numbers.bytes(), grid, [-5, i32::MAX], size, &mut space, &mut told);
            let mut alone = [7];
            let other = engine.chart_length(&numbers.bytes(), grid, [-5, i32::MAX], size, &mut alone);
            assert!(number != 0 || (other, alone) == (0, told), "{name}");
            (number, told[0], String::from_utf8(space).unwrap())
        };
        let head = "ncols 3\nnrows 2\nxllcorner -5\nyllcorner 2147483647\ncellsize 10\nNODATA_value -9999\n";
        let grid = [0, 10, u32::MAX, 7, 8, 9];
        let text = format!("{head}0 10 4294967295\n7 8 9\n");
        let length = text.len();
        assert_eq!(chart(&numbers, &grid, 10, length), (0, length as u32, text.clone()), "{name}");
        assert_eq!(chart(&numbers, &grid, 10, length + 2), (0, length as u32, text + "##"), "{name}");
        assert_eq!(chart(&numbers, &grid, 10, length - 1), (9, 0, "#".repeat(length - 1)), "{name}");
        assert_eq!(chart(&numbers, &grid[1..], 10, 900).0, 9, "{name}");
        // 23 before 9
        let cube = Numbers::new(&[[2, 1, 2], [3, 1, 0], [1, 1, 0]], &[&[1, 0, 0]]);
        assert_eq!([0, 65536].map(|size| chart(&numbers, &grid, size, 0).0), [23; 2], "{name}");
        assert_eq!([chart(&cube, &grid, 1, 0).0, chart(&numbers, &grid, 65535, 900).0], [23, 0], "{name}");
        if engine.has(Request::Shapes) {
            // outside the shape no word is shown, whatever it is
            let text = format!("{head}-9999 10 4294967295\n-9999 -9999 9\n");
            let cut = numbers.within(&[(0, 1, 0, 1, 1)]);
            assert_eq!(chart(&cut, &grid, 10, text.len()).2, text, "{name}");
        }
    }
}

#[test]
fn hours_on_row_d() {
    for engine in engines_with(Request::Hours) {
        let name = engine.name();
        let numbers = row('D');
        let encoded = numbers.bytes();
        let mut areas = areas(&numbers, totals(&*engine, &numbers).unwrap());
        assert_eq!(engine.fresh(&encoded, Route::Direct, &mut areas), 0, "{name}");
        // processor 0 from 60 to below 120 and in the last hour of the week, processor 1 never
        let mut hours = [0; 56];
        hours[..2].copy_from_slice(&[60, 120]);
        hours[6..8].copy_from_slice(&[10_020, 10_080]);
        let opens = |hours: &[u32], minute, processor| {
            let mut out = [7; 2];
            (engine.opens(&encoded, hours, minute, processor, &mut out), out)
        };
        let waits = [0, 59, 60, 119, 120, 10_019, 10_020, 10_079].map(|minute| opens(&hours, minute, 0));
        assert_eq!(waits, [60, 1, 0, 0, 9900, 1, 0, 0].map(|wait| (0, [1, wait])), "{name}");
        assert_eq!(opens(&hours, 5, 1), (0, [0, 0]), "{name}");
        let mut early = hours;
        early[6..8].fill(0);
        assert_eq!(opens(&early, 130, 0), (0, [1, 10_010]), "{name}");
        assert_eq!([opens(&hours, 10_080, 0).0, opens(&hours, 0, 2).0, opens(&hours[1..], 0, 0).0], [25, 11, 9]);
        let mut turn = |hours: &[u32], minute, processor| {
            engine.turn_at(&encoded, Route::Direct, &mut areas, hours, minute, processor)
        };
        assert_eq!([turn(&hours, 59, 0), turn(&hours, 60, 0), turn(&hours, 120, 0)], [24, 0, 24], "{name}");
        // closed and waiting: 24; no such processor: 11, though the minute is closed
        assert_eq!([turn(&hours, 60, 1), turn(&hours, 0, 2), turn(&hours, 10_080, 2)], [24, 11, 25], "{name}");
        assert_eq!([turn(&hours, 119, 0), turn(&hours, 10_079, 0)], [0, 0], "{name}");
        // finished: 13 where it is open, 24 where it is closed
        assert_eq!([turn(&hours, 60, 0), turn(&hours, 0, 0)], [13, 24], "{name}");
        for window in [[1, 0], [5, 5], [6, 5], [0, 10_081], [10_080, 10_081], [10_080, 0]] {
            let mut faulty = hours;
            faulty[54..].copy_from_slice(&window);
            assert_eq!([turn(&faulty, 60, 0), turn(&faulty, 60, 2)], [25; 2], "{window:?}, {name}");
        }
        for (window, expected) in [([0, 1], 12), ([0, 10_080], 12), ([1, 10_080], 24)] {
            let mut sound = hours;
            sound[54..].copy_from_slice(&window);
            assert_eq!(turn(&sound, 0, 1), expected, "{window:?}, {name}");
        }
    }
}

#[test]
fn rows_by_rounds() {
    for engine in engines_with(Request::Rounds) {
        let name = engine.name();
        let driven = |letter| {
            let numbers = row(letter);
            let totals = totals(&*engine, &numbers).unwrap();
            let (mut areas, mut out) = (areas(&numbers, totals), [7]);
            let mut rounds = vec![7; totals[0] as usize];
            assert_eq!(engine.rounds(&numbers.bytes(), &mut areas, &mut out), 0, "{name}");
            assert_eq!(engine.rounds_of(&numbers.bytes(), &mut rounds), 0, "{name}");
            let (mut grid, mut swept) = (vec![0; cells(&numbers)], vec![0; cells(&numbers)]);
            assert_eq!(engine.collect(&numbers.bytes(), Route::Direct, &mut areas, &mut grid), 0, "{name}");
            assert_eq!(engine.sweep(&numbers.bytes(), &areas.source, &mut swept), 0, "{name}");
            assert!(grid == swept && areas.status.iter().all(|&mark| mark == 3), "{name}");
            (out[0], rounds)
        };
        assert_eq!(driven('A'), (9, vec![1, 2, 3, 4, 2, 3, 4, 5, 5, 6, 7, 8, 6, 7, 8, 9]), "{name}");
        assert_eq!(driven('B'), (3, vec![1, 2, 2, 3]), "{name}");
        assert_eq!(driven('D'), (2, vec![1, 2]), "{name}");
        assert_eq!(driven('E'), (3, vec![1, 2, 3]), "{name}");
        assert_eq!(driven('F'), (2, vec![1, 2]), "{name}");
        assert_eq!(driven('H'), (2, vec![1, 2]), "{name}");
        let mut areas = areas(&row('D'), [2, 1, 1, 6]);
        areas.source.push(1);
        let before = areas.clone();
        assert_eq!(engine.rounds(&row('D').bytes(), &mut areas, &mut [0]), 9, "{name}");
        assert!(areas == before, "{name}");
        assert_eq!(engine.rounds_of(&row('D').bytes(), &mut [0; 3]), 9, "{name}");
    }
}

#[test]
fn two_offices_on_row_d() {
    for engine in engines_with(Request::Offices) {
        let name = engine.name();
        let numbers = row('D');
        let encoded = numbers.bytes();
        let own = areas(&numbers, totals(&*engine, &numbers).unwrap());
        let mut rig = Rig { offices: [own.clone(), own], engaged: vec![9; 2] };
        rig.offices[1].source = vec![5, 0, 0, 1];
        let turn = |rig: &mut Rig, office: u32, processor| {
            let [first, second] = &mut rig.offices;
            let (own, other) = if office == 1 { (second, first) } else { (first, second) };
            let (engaged, other) = (&mut rig.engaged, &other.progress);
            engine.tenant_turn(&encoded, Route::Direct, own, engaged, other, office, processor)
        };
        let deliver = |rig: &mut Rig, office: usize, message| {
            let [first, second] = &mut rig.offices;
            let (own, other) = if office == 1 { (second, first) } else { (first, second) };
            let (engaged, other) = (&rig.engaged, &other.progress);
            engine.tenant_deliver(&encoded, Route::Direct, own, engaged, other, office as u32, message)
        };
        assert_eq!([turn(&mut rig, 0, 0), turn(&mut rig, 2, 0)], [10, 11], "{name}");
        assert_eq!(engine.fresh_both(&encoded, Route::Direct, &mut rig), 0, "{name}");
        assert_eq!(rig.engaged, [2, 2], "{name}");
        // the first office gathers, and holds processor 0 until its tile's message is sent
        assert_eq!([turn(&mut rig, 0, 0), turn(&mut rig, 1, 0), turn(&mut rig, 1, 1)], [0, 19, 12], "{name}");
        assert_eq!(rig.engaged, [0, 2], "{name}");
        assert_eq!([turn(&mut rig, 0, 0), turn(&mut rig, 1, 0), turn(&mut rig, 0, 0)], [0, 19, 0], "{name}");
        assert_eq!(rig.engaged, [2, 2], "{name}");
        // finished for this office, and held by the other: 13
        assert_eq!([turn(&mut rig, 1, 0), turn(&mut rig, 0, 0), turn(&mut rig, 1, 2)], [0, 13, 11], "{name}");
        assert_eq!(rig.engaged, [1, 2], "{name}");
        assert_eq!([deliver(&mut rig, 0, 0), deliver(&mut rig, 1, 0), turn(&mut rig, 0, 1)], [0, 14, 0], "{name}");
        // held and waiting: 19
        assert_eq!([turn(&mut rig, 1, 1), turn(&mut rig, 0, 1), turn(&mut rig, 1, 1)], [19, 0, 12], "{name}");
        assert_eq!([turn(&mut rig, 1, 0), turn(&mut rig, 1, 0), deliver(&mut rig, 1, 0)], [0; 3], "{name}");
        assert_eq!([turn(&mut rig, 1, 1), turn(&mut rig, 1, 1)], [0; 2], "{name}");
        assert_eq!(rig.engaged, [2, 2], "{name}");
        for (office, expected) in [(0, [1, 2, 3, 4]), (1, [5, 5, 5, 6])] {
            let mut grid = [0; 4];
            let [first, second] = &mut rig.offices;
            let (own, other) = if office == 1 { (second, first) } else { (first, second) };
            let (engaged, other) = (&rig.engaged, &other.progress);
            assert_eq!(engine.tenant_collect(&encoded, Route::Direct, own, engaged, other, office, &mut grid), 0);
            assert_eq!(grid, expected, "{name}");
        }
        let view = |office, processor, memories: &[u32]| {
            let mut out = [7; 2];
            let number = engine.view_of(&encoded, [&[0; 8], memories], office, processor, &mut out);
            (number, out)
        };
        assert_eq!(view(1, 1, &[0; 8]), (0, [4, 4]), "{name}");
        let refused = [view(2, 1, &[0; 8]), view(0, 2, &[0; 8]), view(0, 2, &[0; 7])];
        assert_eq!(refused, [11, 11, 9].map(|number| (number, [0; 2])), "{name}");
    }
}

/// the second processor keeps cell 1 beside its own, since the message brings it
#[test]
fn own_parts_on_row_d() {
    for engine in engines_with(Request::Own) {
        let name = engine.name();
        let encoded = row('D').bytes();
        let sizes = |processor| {
            let mut out = [7; 4];
            (engine.part_sizes(&encoded, Route::Direct, processor, &mut out), out)
        };
        assert_eq!([0, 1, 2].map(sizes), [(0, [2, 2, 1, 1]), (0, [2, 3, 1, 1]), (11, [0; 4])], "{name}");
        let mut rows = [7; 7];
        assert_eq!(engine.part_messages(&encoded, Route::Direct, 1, &mut rows), 0, "{name}");
        assert_eq!(rows, [0, 0, 1, 0, 1, 1, 0], "{name}");
        let part = |kept| Part {
            source: vec![1; 2],
            memory: vec![9; kept],
            mail: vec![9],
            progress: vec![Progress { finished: 9, stage: 9, sent: 9 }],
            marks: vec![9],
        };
        let mut parts = [part(2), part(3)];
        let turn =
            |parts: &mut [Part; 2], at: usize| engine.part_turn(&encoded, Route::Direct, &mut parts[at], at as u32);
        assert_eq!(turn(&mut parts, 0), 10, "{name}");
        for (processor, part) in (0..).zip(&mut parts) {
            assert_eq!(engine.part_fresh(&encoded, Route::Direct, part, 2), 11, "{name}");
            assert_eq!(engine.part_fresh(&encoded, Route::Direct, part, 1 - processor), 9, "{name}");
            assert_eq!(engine.part_fresh(&encoded, Route::Direct, part, processor), 0, "{name}");
        }
        let post =
            |parts: &mut [Part; 2], message| engine.part_post(&encoded, Route::Direct, &mut parts[0], 0, message);
        let arrive = |parts: &mut [Part; 2], at: u32, words: &[u32]| {
            engine.part_arrive(&encoded, Route::Direct, &mut parts[at as usize], at, 0, words)
        };
        let collect = |parts: &mut [Part; 2], at: u32, grid: &mut [u32]| {
            engine.part_collect(&encoded, Route::Direct, &mut parts[at as usize], at, grid)
        };
        let mut grid = [8; 4];
        let early = [turn(&mut parts, 1), post(&mut parts, 0), collect(&mut parts, 0, &mut grid)];
        assert_eq!(early, [12, 14, 15], "{name}");
        assert_eq!([0; 4].map(|at| turn(&mut parts, at)), [0, 0, 0, 13], "{name}");
        assert_eq!([1, 0, 0].map(|message| post(&mut parts, message)), [11, 0, 14], "{name}");
        assert_eq!([arrive(&mut parts, 0, &[2]), arrive(&mut parts, 1, &[2, 2])], [11, 9], "{name}");
        assert_eq!([arrive(&mut parts, 1, &[2]), arrive(&mut parts, 1, &[5])], [0, 14], "{name}");
        assert_eq!([1; 3].map(|at| turn(&mut parts, at)), [0, 0, 13], "{name}");
        assert_eq!((&parts[0].memory[..], &parts[1].memory[..]), (&[1, 2][..], &[2, 3, 4][..]), "{name}");
        assert_eq!((collect(&mut parts, 1, &mut grid), grid), (0, [8, 8, 3, 4]), "{name}");
        assert_eq!((collect(&mut parts, 0, &mut grid), grid), (0, [1, 2, 3, 4]), "{name}");
    }
}

const SMALL: Limits = Limits { cells: 30, words: 300 };

#[test]
fn naive_and_plain_agree_with_the_model() {
    let engines: [(&dyn Engine, u64, Limits); 4] = [
        (&Naive::default(), 600, SMALL),
        (&PLAIN, 3000, SMALL),
        (&WAVEFRONT, 3000, SMALL),
        // rows long enough for four at a time, and large recipes
        (&WAVEFRONT, 3000, crate::LIMITS),
    ];
    for (engine, trials, limits) in engines {
        if let Err((_, difference)) = differ::trials(1, trials, engine, limits) {
            panic!("{}: {difference}", engine.name());
        }
    }
}

#[test]
fn planted_faults_are_found() {
    for fault in FAULTS {
        let naive = Naive::with(fault);
        assert!(differ::trials(1, crate::FAULT_TRIALS, &naive, SMALL).is_err(), "{fault:?} was not found");
    }
}

/// those that the plain calls do not have, the model's own by the model
#[test]
fn trials_meet_every_number_of_the_requests() {
    // large recipes too, whatever the number
    assert!(differ::trials(1, 600, &Model::default(), crate::LIMITS).is_ok());
    let Ok(tally) = differ::trials(1, 6000, &Model::default(), SMALL) else { panic!("a difference") };
    let expected: [(&str, &[usize]); 27] = [
        ("fresh_both", &[0, 2, 5, 6, 9]),
        ("tenant_turn", &[0, 2, 5, 6, 9, 10, 11, 12, 13, 16, 17, 19]),
        ("tenant_deliver", &[0, 9, 10, 11, 14]),
        ("tenant_collect", &[0, 9, 10, 11, 15]),
        ("view", &[0, 2, 9, 11]),
        ("soundings", &[0, 1, 2, 3, 5, 6, 8, 9, 16, 17, 20, 22]),
        ("chart", &[0, 2, 5, 6, 9, 23]),
        ("chart_length", &[0, 2, 5, 6, 9, 20, 23]),
        ("turn_at", &[0, 2, 9, 10, 11, 12, 13, 24, 25]),
        ("tenant_turn_at", &[0, 9, 10, 11, 12, 13, 19, 24, 25]),
        ("opens", &[0, 2, 5, 6, 9, 11, 20, 25]),
        ("rounds", &[0, 2, 5, 6, 9]),
        ("rounds_of", &[0, 2, 5, 6, 9, 20]),
        ("part_sizes", &[0, 1, 2, 3, 5, 6, 8, 11, 16, 17, 18, 20, 21]),
        ("part_messages", &[0, 1, 2, 3, 5, 6, 8, 9, 11, 16, 17, 18, 20, 21]),
        ("part_fresh", &[0, 1, 2, 3, 5, 6, 8, 9, 11, 20, 21]),
        ("part_turn", &[0, 1, 2, 3, 4, 5, 6, 7, 8, 9, 10, 11, 12, 13, 16, 17, 18, 20, 21]),
        ("part_post", &[0, 1, 2, 3, 5, 6, 8, 9, 10, 11, 14, 16, 17, 18, 20, 21]),
        ("part_arrive", &[0, 1, 2, 3, 5, 6, 8, 9, 10, 11, 14, 16, 17, 18, 20, 21]),
        ("part_collect", &[0, 2, 3, 5, 6, 9, 10, 11, 15, 20, 21]),
        ("fresh", &[0, 20, 21]),
        ("turn", &[0, 20, 21]),
        ("summary", &[0, 8, 20, 21]),
        ("hops", &[0, 20]),
        ("sweep", &[0, 20]),
        ("read", &[0, 1, 2, 3, 5, 6, 8, 16, 17, 18, 20]),
        ("write", &[0, 2, 8, 9, 20]),
    ];
    assert!(tally.shifted > 50 && tally.swaps > 1000, "{tally}");
    for (call, numbers) in expected {
        for &number in numbers {
            assert!(tally.count(call, number) > 0, "{call} never gave {number}\n{tally}");
        }
    }
}

#[test]
fn trials_meet_every_number() {
    let Ok(tally) = differ::trials(1, 6000, &PLAIN, SMALL) else { panic!("a difference") };
    let expected: [(&str, &[usize]); 8] = [
        ("fresh", &[0, 1, 2, 3, 4, 5, 6, 7, 9, 16, 17]),
        ("turn", &[0, 1, 2, 3, 4, 5, 6, 7, 9, 10, 11, 12, 13, 16, 17, 18]),
        ("deliver", &[0, 2, 3, 5, 6, 7, 9, 10, 11, 14, 16, 17]),
        ("collect", &[0, 9, 10, 15]),
        ("sweep", &[0, 1, 2, 3, 4, 5, 6, 7, 8, 9, 16, 17, 18]),
        ("summary", &[0, 1, 2, 3, 4, 5, 6, 7, 8, 16, 17, 18]),
        ("message", &[0, 1, 2, 3, 4, 5, 6, 7, 8, 11, 16, 17, 18]),
        ("hops", &[0, 1, 2, 3, 4, 5, 6, 7, 8, 11, 16, 17, 18]),
    ];
    assert!(tally.forwarded > 100, "{tally}");
    for (call, numbers) in expected {
        for &number in numbers {
            assert!(tally.count(call, number) > 0, "{call} never gave {number}\n{tally}");
        }
    }
}

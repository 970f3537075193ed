//! The recipe that docs/MODELLERS.md draws: a box of 6 by 6 cells, of which those with a second component at least the first
//! are the shape. Its plan and its grid were worked out by tools/model.py.

use rolwyddac::{hops, message, soundings, summary, sweep, Fields, Recipe, Refusal, Rig, Route, Run};

const CELLS: usize = 36;

fn box_of_six() -> Fields {
    Fields::new().dimension(6, 2, 3).dimension(6, 2, 0).distance(&[1, 0], 1).distance(&[1, 1], 1)
}

fn shore() -> Recipe {
    box_of_six().at_least(1, 0, 1, 0).close(1, 9).unwrap()
}

fn source() -> Vec<u32> {
    (0..CELLS as u32).collect()
}

/// what the sweep has of each cell's number as its source
const SWEPT: [u32; CELLS] = [
    9, 9, 10, 10, 11, 11, //
    9, 12, 13, 14, 15, 16, //
    9, 9, 19, 21, 22, 24, //
    9, 9, 9, 30, 32, 34, //
    9, 9, 9, 9, 45, 47, //
    9, 9, 9, 9, 9, 63,
];

#[test]
fn tiles_and_takers() {
    let plan = summary(&shore(), Route::Direct).unwrap();
    assert_eq!([plan.tiles, plan.messages, plan.words, plan.steps], [6, 5, 8, 22]);
    assert_eq!((plan.cells, plan.processors), (CELLS, 3));
    let line = |m| {
        let line = message(&shore(), Route::Direct, m).unwrap();
        [line.sending_tile, line.taking_tile, line.sending_processor, line.taking_processor, line.words]
    };
    // tiles 0 and 3 have no tile ahead of them: the next of that chain takes their message
    let lines = [[0, 3, 0, 1, 1], [1, 3, 0, 1, 2], [2, 4, 0, 1, 2], [3, 5, 1, 2, 1], [4, 5, 1, 2, 2]];
    assert_eq!([line(0), line(1), line(2), line(3), line(4)], lines);
    assert_eq!(message(&shore(), Route::Direct, 5), Err(Refusal::NoSuch));
}

#[test]
fn a_run_gives_the_sweep() {
    let (recipe, source) = (shore(), source());
    let mut swept = vec![0; CELLS];
    sweep(&recipe, &source, &mut swept).unwrap();
    assert_eq!(swept, SWEPT);
    let mut run = Run::start(&recipe, Route::Direct, &source).unwrap();
    assert_eq!(run.turn(1), Err(Refusal::Waiting));
    assert_eq!(run.finish(), Ok(22));
    assert_eq!(run.collect().unwrap(), SWEPT);
    // no memory has a word of a cell outside
    for (place, &word) in run.areas().memories.iter().enumerate() {
        let (row, column) = (place % CELLS / 6, place % 6);
        assert!(column >= row || word == 0);
    }
}

#[test]
fn two_offices_over_a_shape() {
    let (recipe, source, other) = (shore(), source(), [1; CELLS]);
    let mut rig = Rig::start(&recipe, Route::Direct, [&source, &other]).unwrap();
    assert_eq!(rig.finish(), Ok([22, 22]));
    assert_eq!(rig.collect(0).unwrap(), SWEPT);
    let mut swept = vec![0; CELLS];
    sweep(&recipe, &other, &mut swept).unwrap();
    assert_eq!(rig.collect(1).unwrap(), swept);
}

#[test]
fn any_bound_keeps_to_the_direct_route() {
    let source = source();
    let whole = box_of_six().at_least(1, 0, -1, i16::MIN).close(1, 9).unwrap();
    for recipe in [shore(), whole] {
        assert_eq!(summary(&recipe, Route::Indirect), Err(Refusal::DirectOnly));
        assert_eq!(message(&recipe, Route::Indirect, 99), Err(Refusal::DirectOnly));
        assert_eq!(Run::start(&recipe, Route::Indirect, &source).err(), Some(Refusal::DirectOnly));
        // behind the recipe's own lines, before the lengths of areas
        assert_eq!(Run::start(&recipe, Route::Indirect, &[]).err(), Some(Refusal::DirectOnly));
        assert_eq!(Rig::start(&recipe, Route::Indirect, [&source, &source]).err(), Some(Refusal::DirectOnly));
        // these are given no route
        assert_eq!(hops(&recipe, 0), Ok(1));
        assert_eq!(sweep(&recipe, &source, &mut [0; CELLS]), Ok(()));
        assert_eq!(soundings(&recipe, &[], 7, &mut [0; CELLS]), Ok(()));
    }
}

#[test]
fn a_bound_that_cuts_nothing() {
    let (source, boxed) = (source(), box_of_six().close(1, 9).unwrap());
    let mut swept = vec![0; CELLS];
    sweep(&boxed, &source, &mut swept).unwrap();
    let whole = box_of_six().at_most(1, 0, 0, 5).close(1, 9).unwrap();
    assert_eq!(summary(&whole, Route::Direct), summary(&boxed, Route::Direct));
    let mut run = Run::start(&whole, Route::Direct, &source).unwrap();
    run.finish().unwrap();
    assert_eq!(run.collect().unwrap(), swept);
}

#[test]
fn bounds_refused() {
    // no cell; faults of one bound, and a fifth
    assert_eq!(box_of_six().at_most(1, 0, 0, -1).close(1, 9), Err(Refusal::Empty));
    assert_eq!(box_of_six().at_least(1, 0, 1, 0).at_most(1, 0, 1, -1).close(1, 9), Err(Refusal::Empty));
    assert_eq!(box_of_six().at_least(1, 0, 1, 6).close(1, 9), Err(Refusal::Empty));
    assert_eq!(box_of_six().at_least(1, 1, 0, 0).close(1, 9), Err(Refusal::StrayRecord));
    assert_eq!(box_of_six().at_least(2, 0, 0, 0).close(1, 9), Err(Refusal::StrayRecord));
    assert_eq!(box_of_six().at_least(1, 0, 2, 0).close(1, 9), Err(Refusal::StrayRecord));
    let four = (0..4).fold(box_of_six(), |fields, _| fields.at_least(1, 0, 1, 0));
    assert!(four.close(1, 9).is_ok());
    assert_eq!(four.at_least(1, 0, 1, 0).close(1, 9), Err(Refusal::StrayRecord));
    // 20 stands before 5, and a box of too many tiles may have a shape of few
    assert_eq!(box_of_six().distance(&[0], 1).at_most(1, 0, 0, -1).close(1, 9), Err(Refusal::Empty));
    let many = Fields::new().dimension(128, 1, 2).dimension(128, 1, 0).distance(&[1, 1], 1);
    assert_eq!(many.close(0, 0), Err(Refusal::Tiles));
    assert!(many.at_most(1, 0, 0, 7).close(0, 0).is_ok());
}

//! Row C of document 01 by both routes: 8 by 8 by 8 cells in tiles of 4 on two by two processors, each cell reading the one
//! at distance 2, 1, 0. Between neighbours only, the corner's cells go along dimension one, then along dimension two.

use rolwyddac::{hops, message, summary, sweep, Fields, Recipe, Refusal, Route, Run};

const CELLS: usize = 8 * 8 * 8;

fn row_c() -> Recipe {
    let fields = Fields::new().dimension(8, 4, 2).dimension(8, 4, 2).dimension(8, 4, 0);
    fields.distance(&[2, 1, 0], 1).close(0, 0).unwrap()
}

fn totals(route: Route) -> [u32; 4] {
    let plan = summary(&row_c(), route).unwrap();
    [plan.tiles, plan.messages, plan.words, plan.steps]
}

#[test]
fn fewer_and_longer_messages() {
    assert_eq!(totals(Route::Direct), [8, 10, 144, 36]);
    assert_eq!(totals(Route::Indirect), [8, 8, 160, 32]);
    let line = |m| {
        let line = message(&row_c(), Route::Indirect, m).unwrap();
        [line.sending_tile, line.taking_tile, line.sending_processor, line.taking_processor, line.words]
    };
    // tile 0 along dimension one, then two; tile 4 passes on the 8 cells that tile 0 sent it for tile 6
    assert_eq!([line(0), line(1), line(6)], [[0, 4, 0, 2, 32], [0, 2, 0, 1, 8], [4, 6, 2, 3, 16]]);
    assert_eq!(message(&row_c(), Route::Indirect, 8), Err(Refusal::NoSuch));
}

#[test]
fn the_corner_takes_two_hops() {
    let all: Vec<u32> = (0..10).map(|m| hops(&row_c(), m).unwrap()).collect();
    assert_eq!(all, [1, 1, 2, 1, 1, 2, 1, 1, 1, 1]);
    assert_eq!(hops(&row_c(), 10), Err(Refusal::NoSuch));
}

#[test]
fn either_route_gives_the_sweep() {
    let (recipe, source) = (row_c(), (0..CELLS as u32).collect::<Vec<u32>>());
    let mut swept = vec![0; CELLS];
    sweep(&recipe, &source, &mut swept).unwrap();
    for route in [Route::Direct, Route::Indirect] {
        let mut run = Run::start(&recipe, route, &source).unwrap();
        // the first tile of processor 3 waits for three messages on the direct route, for two on the indirect one
        assert_eq!(run.turn(3), Err(Refusal::Waiting));
        assert_eq!(run.finish(), Ok(totals(route)[3]));
        assert!(run.collect().unwrap() == swept);
    }
}

#[test]
fn one_processor_sends_itself_nothing() {
    let fields = Fields::new().dimension(8, 4, 1).dimension(8, 4, 2).dimension(8, 4, 0);
    let (recipe, source) = (fields.distance(&[2, 1, 0], 1).close(0, 0).unwrap(), vec![1; CELLS]);
    let mut swept = vec![0; CELLS];
    sweep(&recipe, &source, &mut swept).unwrap();
    for (route, messages) in [(Route::Direct, 6), (Route::Indirect, 4)] {
        let mut run = Run::start(&recipe, route, &source).unwrap();
        assert_eq!((run.plan().processors, run.plan().messages), (2, messages));
        assert_eq!(run.finish(), Ok(2 * 8 + 2 * messages));
        assert!(run.collect().unwrap() == swept);
    }
    assert_eq!(hops(&recipe, 1), Ok(1));
}

#[test]
fn areas_of_one_route_are_refused_on_the_other() {
    let (recipe, source) = (row_c(), vec![1; CELLS]);
    let run = Run::start(&recipe, Route::Direct, &source).unwrap();
    let mut areas = run.areas().clone();
    let (memories, buffer) = (&mut areas.memories, &mut areas.buffer);
    let (progress, status) = (&mut areas.progress, &mut areas.status);
    let turned = rolwyddac::turn(&recipe, Route::Indirect, &source, memories, buffer, progress, status, 0);
    assert_eq!(turned, Err(Refusal::Area));
    assert!(areas == *run.areas());
}

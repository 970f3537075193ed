//! Row D of document 01 step by step: four cells in a line, in tiles of two on two processors. Every call gives what
//! the paper's table has for it, and a refusal leaves every lent word as it was.

use rolwyddac::{
    hops, message, summary, summary_words, sweep, Areas, Fields, Figures, Recipe, Refusal, Route::Direct, Run,
};

const SOURCE: [u32; 4] = [1; 4];

fn row_d() -> Recipe {
    Fields::new().dimension(4, 2, 2).dimension(1, 1, 0).distance(&[1, 0], 1).close(0, 0).unwrap()
}

/// row D's bytes, some of them changed
fn changed(bytes: &[(usize, u8)]) -> Vec<u8> {
    let mut recipe = row_d().to_vec();
    bytes.iter().for_each(|&(at, byte)| recipe[at] = byte);
    recipe
}

#[test]
fn a_run_step_by_step() {
    let recipe = row_d();
    let mut run = Run::start(&recipe, Direct, &SOURCE).unwrap();
    assert_eq!(run.turn(1), Err(Refusal::Waiting));
    assert_eq!(run.turn(2), Err(Refusal::NoSuch));
    assert_eq!(run.deliver(0), Err(Refusal::NoMail));
    assert_eq!(run.deliver(1), Err(Refusal::NoSuch));
    for _ in 0..3 {
        assert_eq!(run.turn(0), Ok(()));
    }
    assert_eq!(run.turn(0), Err(Refusal::Finished));
    assert_eq!((&run.areas().buffer[..], run.in_flight()), (&[2][..], vec![0]));
    assert_eq!(run.turn(1), Err(Refusal::Waiting));
    assert_eq!(run.deliver(0), Ok(()));
    assert_eq!(run.turn(1), Ok(()));
    assert_eq!(run.collect(), Err(Refusal::Early));
    assert_eq!(run.turn(1), Ok(()));
    assert_eq!(run.collect().unwrap(), [1, 2, 3, 4]);
    assert_eq!(run.finish(), Ok(0));
}

#[test]
fn the_plan() {
    let plan = summary(&row_d(), Direct).unwrap();
    assert_eq!((plan.cells, plan.processors), (4, 2));
    assert_eq!([plan.tiles, plan.messages, plan.words, plan.steps], [2, 1, 1, 6]);
    let line = message(&row_d(), Direct, 0).unwrap();
    assert_eq!((line.sending_tile, line.taking_tile, line.words), (0, 1, 1));
    assert_eq!((line.sending_processor, line.taking_processor), (0, 1));
    assert_eq!(message(&row_d(), Direct, 1), Err(Refusal::NoSuch));
    let figures = Figures { tiles: 2, messages: 1, words: 1, steps: 6 };
    assert_eq!(summary_words(&row_d(), Direct), Ok(figures));
    assert_eq!((hops(&row_d(), 0), hops(&row_d(), 1)), (Ok(1), Err(Refusal::NoSuch)));
}

#[test]
fn recipes_refused() {
    let refused = [
        (changed(&[(2, 0)]), Refusal::Length),
        (changed(&[(0, 3)]), Refusal::StrayRecord),
        (changed(&[(2, 128), (18, 129)]), Refusal::TooLarge),
        (changed(&[(32, 4), (38, 0), (42, 1)]), Refusal::TooWide),
        (changed(&[(34, 0)]), Refusal::Distance),
        (changed(&[(4, 0)]), Refusal::Tile),
        (changed(&[(6, 0)]), Refusal::SpreadOrder),
        (changed(&[(22, 2)]), Refusal::LastSpread),
        (changed(&[(6, 65)]), Refusal::Boards),
        (changed(&[(2, 255), (18, 64)]), Refusal::Tiles),
    ];
    for (recipe, refusal) in refused {
        assert_eq!(summary(&recipe, Direct), Err(refusal));
        assert_eq!(hops(&recipe, 0), Err(refusal));
        assert_eq!(sweep(&recipe, &SOURCE, &mut [0; 4]), Err(refusal));
        assert_eq!(Run::start(&recipe, Direct, &SOURCE).err(), Some(refusal));
    }
    assert_eq!(summary(&[], Direct), Err(Refusal::Ragged));
    assert_eq!(summary(&row_d()[..63], Direct), Err(Refusal::Ragged));
}

#[test]
fn fields_refused() {
    let line = |n, k, p, d| Fields::new().dimension(n, k, p).dimension(1, 1, 0).distance(&[d, 0], 1);
    let refused = [
        (line(0, 2, 2, 1), Refusal::Length),
        (Fields::new().dimension(4, 2, 2).distance(&[1], 1), Refusal::StrayRecord),
        (Fields::new().dimension(128, 8, 2).dimension(129, 8, 0).distance(&[1, 0], 1), Refusal::TooLarge),
        (line(4, 2, 2, 0), Refusal::Distance),
        (line(4, 0, 2, 1), Refusal::Tile),
        (line(4, 2, 65, 1), Refusal::Boards),
        (Fields::new().dimension(255, 2, 2).dimension(64, 1, 0).distance(&[1, 0], 1), Refusal::Tiles),
    ];
    for (fields, refusal) in refused {
        assert_eq!(fields.close(0, 0), Err(refusal));
    }
    let mut space = [7; 65];
    let written =
        rolwyddac::write(&[4, 1], &[2, 1], &[2, 0], &[1, 0, 0, 0], &[1], &[], &[], &[], &[], &[], 0, 0, &mut space);
    assert_eq!((written, space), (Err(Refusal::Area), [7; 65]));
}

#[test]
fn a_refusal_leaves_all_as_it_was() {
    let recipe = row_d();
    let mut areas = Areas::sized(&summary(&recipe, Direct).unwrap());
    areas.memories.fill(7);
    areas.buffer.fill(7);
    areas.status.fill(4);
    let before = areas.clone();
    let Areas { memories, buffer, progress, status } = &mut areas;
    assert_eq!(rolwyddac::turn(&recipe, Direct, &SOURCE, memories, buffer, progress, status, 0), Err(Refusal::Unfit));
    assert_eq!(rolwyddac::fresh(&recipe, Direct, &SOURCE[1..], memories, buffer, progress, status), Err(Refusal::Area));
    assert_eq!(rolwyddac::deliver(&recipe, Direct, &SOURCE, &[], buffer, progress, status, 0), Err(Refusal::Area));
    let mut grid = [9; 4];
    assert_eq!(
        rolwyddac::collect(&recipe, Direct, &SOURCE, memories, buffer, progress, status, &mut grid),
        Err(Refusal::Unfit)
    );
    assert_eq!(grid, [9; 4]);
    assert!(areas == before);
}

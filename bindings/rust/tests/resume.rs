//! Runs that are kept on the way and gone on with: after each step of row D in turn, the rest of the run gives the same grid; areas
//! that do not fit are refused.

use rolwyddac::{Areas, Fields, Recipe, Refusal, Route, Run, Summary};

fn row_d() -> Recipe {
    Fields::new().dimension(4, 2, 2).dimension(1, 1, 0).distance(&[1, 0], 1).close(0, 0).unwrap()
}

/// The run of row D, a call a step.
fn step(run: &mut Run, at: usize) -> Result<(), Refusal> {
    match at {
        0..=2 => run.turn(0),
        3 => run.deliver(0),
        _ => run.turn(1),
    }
}

#[test]
fn every_step_can_be_kept() {
    let (recipe, source) = (row_d(), [1; 4]);
    for kept in 0..=6 {
        let mut run = Run::start(&recipe, Route::Direct, &source).unwrap();
        for at in 0..kept {
            step(&mut run, at).unwrap();
        }
        let mut run = Run::resume(&recipe, Route::Direct, &source, run.into_areas()).unwrap();
        for at in kept..6 {
            step(&mut run, at).unwrap();
        }
        assert_eq!(run.collect(), Ok(vec![1, 2, 3, 4]), "kept after {kept} steps");
    }
}

#[test]
fn areas_that_do_not_fit_are_refused() {
    let (recipe, source) = (row_d(), [1; 4]);
    let areas = Run::start(&recipe, Route::Direct, &source).unwrap().into_areas();
    let resumed = |areas: Areas| Run::resume(&recipe, Route::Direct, &source, areas).err();
    assert_eq!(resumed(areas.clone()), None);
    assert_eq!(resumed(Areas { status: vec![0; 2], ..areas.clone() }), Some(Refusal::Area));
    assert_eq!(resumed(Areas { status: vec![4], ..areas.clone() }), Some(Refusal::Unfit));
    assert_eq!(Run::resume(&recipe[..8], Route::Direct, &source, areas.clone()).err(), Some(Refusal::Ragged));
    assert_eq!(Run::resume(&recipe, Route::Direct, &source[..3], areas).err(), Some(Refusal::Area));
}

#[test]
fn no_message_means_no_element() {
    let recipe = Fields::new().dimension(1, 2, 2).dimension(2, 1, 0).distance(&[1, 0], 1).close(0, 0).unwrap();
    let mut run = Run::start(&recipe, Route::Direct, &[5, 7]).unwrap();
    assert_eq!(*run.plan(), Summary { cells: 2, processors: 2, tiles: 2, messages: 0, words: 0, steps: 4 });
    assert!(run.areas().buffer.is_empty() && run.areas().status.is_empty());
    assert_eq!(run.turn(1), Err(Refusal::Finished));
    assert_eq!(run.finish(), Ok(4));
    assert_eq!(run.collect(), Ok(vec![5, 7]));
}

//! A basin of 8 by 8 by 8 cells in tiles of 4 on two by two processors, by both routes, then kept half way and gone on with.

use rolwyddac::{hops, message, sweep, Fields, Refusal, Route, Run};

fn main() -> Result<(), Refusal> {
    // each cell adds the one that is two back in the first dimension and one back in the second
    let recipe =
        Fields::new().dimension(8, 4, 2).dimension(8, 4, 2).dimension(8, 4, 0).distance(&[2, 1, 0], 1).close(0, 0)?;
    let source: Vec<u32> = (1..=512).collect();
    let mut swept = vec![0; source.len()];
    sweep(&recipe, &source, &mut swept)?;

    for route in [Route::Direct, Route::Indirect] {
        let mut run = Run::start(&recipe, route, &source)?;
        let steps = run.finish()?;
        let plan = *run.plan();
        let equal = if run.collect()? == swept { "equal to" } else { "NOT equal to" };
        println!(
            "{route:?}: {} messages, {} words, steps {steps} of {}, {equal} the sweep",
            plan.messages, plan.words, plan.steps
        );
    }

    let first = message(&recipe, Route::Direct, 0)?;
    println!(
        "message 0: tile {} to tile {}, {} words, hops {}",
        first.sending_tile,
        first.taking_tile,
        first.words,
        hops(&recipe, 0)?
    );

    // three turns, then the areas are kept, as in a file, and another run goes on from there
    let mut run = Run::start(&recipe, Route::Direct, &source)?;
    for _ in 0..3 {
        run.turn(0)?;
    }
    let kept = run.into_areas();
    let mut run = Run::resume(&recipe, Route::Direct, &source, kept)?;
    let steps = 3 + run.finish()?;
    let equal = if run.collect()? == swept { "equal to" } else { "NOT equal to" };
    println!("gone on with: steps {steps} of {}, {equal} the sweep", run.plan().steps);
    Ok(())
}

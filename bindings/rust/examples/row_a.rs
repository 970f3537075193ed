//! Runs row A of document 01 to the end and prints the grid: 8 by 8 cells in tiles of 2 by 2 on two processors.

use rolwyddac::{sweep, Fields, Refusal, Route, Run};

fn main() -> Result<(), Refusal> {
    let recipe = Fields::new()
        .dimension(8, 2, 2)
        .dimension(8, 2, 0)
        .distance(&[1, 0], 1)
        .distance(&[0, 1], 1)
        .distance(&[1, 1], 1)
        .close(0, 0)?;
    let source = [1; 64];

    let mut run = Run::start(&recipe, Route::Direct, &source)?;
    let steps = run.finish()?;
    let grid = run.collect()?;
    for row in grid.chunks(8) {
        println!("{}", row.iter().map(u32::to_string).collect::<Vec<_>>().join(" "));
    }

    let mut swept = vec![0; 64];
    sweep(&recipe, &source, &mut swept)?;
    let equal = if grid == swept { "equal to" } else { "NOT equal to" };
    println!("steps {steps} of {}, {equal} the sweep", run.plan().steps);
    Ok(())
}

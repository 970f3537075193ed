//! One processor: a count of 1 in the spread dimension. Nothing is mailed, so buffer and status have no element, and a run is two
//! turns a tile.

use rolwyddac::{Fields, Refusal, Route, Run};

fn main() -> Result<(), Refusal> {
    let recipe = Fields::new().dimension(4, 2, 1).dimension(1, 1, 0).distance(&[1, 0], 1).close(0, 0)?;
    let source = [1; 4];
    let mut run = Run::start(&recipe, Route::Direct, &source)?;
    println!("buffer {} words, status {} bytes", run.areas().buffer.len(), run.areas().status.len());
    println!("collect: {}", run.collect().expect_err("two tiles are left"));
    let steps = run.finish()?;
    println!("grid {:?}, steps {steps} of {}", run.collect()?, run.plan().steps);
    println!("turn: {}", run.turn(0).expect_err("no tile is left"));
    Ok(())
}

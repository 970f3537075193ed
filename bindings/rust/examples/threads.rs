//! A thread for each of four processors and one that delivers, all over one run: whatever the order in which the system lets them
//! go, the grid is that of the sweep, in as many steps as the plan has. A call is lent the whole areas, so the threads take
//! them one after the other, behind a lock.

use std::{
    sync::{
        atomic::{AtomicU32, Ordering},
        Mutex,
    },
    thread,
};

use rolwyddac::{sweep, Fields, Refusal, Route, Run};

fn main() -> Result<(), Refusal> {
    let recipe = Fields::new()
        .dimension(32, 4, 4)
        .dimension(32, 8, 0)
        .distance(&[1, 0], 3)
        .distance(&[0, 1], 2)
        .distance(&[1, 1], 1)
        .close(2, 7)?;
    let source: Vec<u32> = (100..100 + 32 * 32).collect();
    let run = Run::start(&recipe, Route::Direct, &source)?;
    let plan = *run.plan();
    let (run, steps) = (Mutex::new(run), AtomicU32::new(0));

    thread::scope(|scope| {
        for processor in 0..plan.processors as u32 {
            let (run, steps) = (&run, &steps);
            scope.spawn(move || loop {
                let called = run.lock().expect("no thread panics").turn(processor);
                match called {
                    Ok(()) => {
                        steps.fetch_add(1, Ordering::Relaxed);
                    }
                    Err(Refusal::Finished) => break,
                    Err(refusal) => assert_eq!(refusal, Refusal::Waiting),
                }
                thread::yield_now();
            });
        }
        scope.spawn(|| {
            while steps.load(Ordering::Relaxed) < plan.steps {
                let mut run = run.lock().expect("no thread panics");
                for message in run.in_flight() {
                    run.deliver(message).expect("in flight");
                    steps.fetch_add(1, Ordering::Relaxed);
                }
                drop(run);
                thread::yield_now();
            }
        });
    });

    let run = run.into_inner().expect("no thread panics");
    let mut swept = vec![0; plan.cells];
    sweep(&recipe, &source, &mut swept)?;
    let equal = if run.collect()? == swept { "equal to" } else { "NOT equal to" };
    println!("{} processors, steps {} of {}, {equal} the sweep", plan.processors, steps.into_inner(), plan.steps);
    Ok(())
}

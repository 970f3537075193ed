//! Runs row A of document 01 for two offices on the same two processors, their turns and deliveries mixed by a small random
//! generator, and compares each office's grid with the sweep of its own source.

use rolwyddac::{sweep, Fields, Refusal, Rig, Route};

/// Numbers that look random, the same at every run: a linear congruential generator.
struct Mix(u64);

impl Mix {
    fn below(&mut self, bound: u32) -> u32 {
        self.0 = self.0.wrapping_mul(6_364_136_223_846_793_005).wrapping_add(1_442_695_040_888_963_407);
        ((self.0 >> 33) % u64::from(bound)) as u32
    }
}

fn main() -> Result<(), Refusal> {
    let recipe = Fields::new()
        .dimension(8, 2, 2)
        .dimension(8, 2, 0)
        .distance(&[1, 0], 1)
        .distance(&[0, 1], 1)
        .distance(&[1, 1], 1)
        .close(0, 0)?;
    let sources: [Vec<u32>; 2] = [vec![1; 64], (1..=64).collect()];

    let mut rig = Rig::start(&recipe, Route::Direct, [&sources[0], &sources[1]])?;
    let plan = *rig.plan();
    let (mut mix, mut steps) = (Mix(208), [0; 2]);
    while steps != [plan.steps; 2] {
        let office = mix.below(2);
        let called = if mix.below(3) == 0 {
            rig.deliver(office, mix.below(plan.messages))
        } else {
            rig.turn(office, mix.below(plan.processors as u32))
        };
        match called {
            Ok(()) => steps[office as usize] += 1,
            Err(Refusal::Engaged | Refusal::Waiting | Refusal::Finished | Refusal::NoMail) => {}
            Err(refusal) => return Err(refusal),
        }
    }

    for office in [0, 1] {
        let mut swept = vec![0; plan.cells];
        sweep(&recipe, &sources[office as usize], &mut swept)?;
        let equal = if rig.collect(office)? == swept { "equal to" } else { "NOT equal to" };
        println!("office {office}: steps {} of {}, {equal} its sweep", steps[office as usize], plan.steps);
    }
    Ok(())
}

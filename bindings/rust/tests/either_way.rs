//! Two steps, either way round, request W-214: along whole runs, every two different events that can both be taken are taken in both
//! orders, and every lent word is the same after both.

use rolwyddac::{
    Fields, Recipe, Refusal, Rig,
    Route::{Direct, Indirect},
    Run,
};

/// Four cells by four by two, in tiles of two by two by one on four processors; with corner messages.
fn recipe() -> Recipe {
    let fields = Fields::new().dimension(4, 2, 2).dimension(4, 2, 2).dimension(2, 1, 0);
    fields.distance(&[1, 1, 0], 3).distance(&[0, 1, 1], 2).distance(&[1, 0, 0], 1).close(1, 5).unwrap()
}

#[derive(Clone, Copy, PartialEq)]
enum Event {
    Turn(u32),
    Deliver(u32),
}

use Event::{Deliver, Turn};

fn events(processors: usize, messages: u32) -> Vec<Event> {
    (0..processors as u32).map(Turn).chain((0..messages).map(Deliver)).collect()
}

fn take(run: &mut Run, event: Event) -> Result<(), Refusal> {
    match event {
        Turn(processor) => run.turn(processor),
        Deliver(message) => run.deliver(message),
    }
}

fn take_for(rig: &mut Rig, (office, event): (u32, Event)) -> Result<(), Refusal> {
    match event {
        Turn(processor) => rig.turn(office, processor),
        Deliver(message) => rig.deliver(office, message),
    }
}

#[test]
fn along_a_run() {
    let (recipe, source) = (recipe(), (1..=32).collect::<Vec<u32>>());
    for route in [Direct, Indirect] {
        let mut run = Run::start(&recipe, route, &source).unwrap();
        let all = events(run.areas().progress.len(), run.plan().messages);
        let mut pairs = 0;
        for step in 0..run.plan().steps as usize {
            let can: Vec<Event> = all.iter().copied().filter(|&event| take(&mut run.clone(), event).is_ok()).collect();
            for (at, &first) in can.iter().enumerate() {
                for &second in &can[..at] {
                    let (mut one, mut other) = (run.clone(), run.clone());
                    assert_eq!((take(&mut one, first), take(&mut one, second)), (Ok(()), Ok(())));
                    assert_eq!((take(&mut other, second), take(&mut other, first)), (Ok(()), Ok(())));
                    assert_eq!(one.areas(), other.areas());
                    pairs += 1;
                }
            }
            take(&mut run, can[step % can.len()]).unwrap();
        }
        assert!(pairs > 40 && run.collect().is_ok(), "{pairs} pairs");
    }
}

#[test]
fn along_a_run_of_two_offices() {
    let recipe = recipe();
    let sources = [(1..=32).collect::<Vec<u32>>(), vec![7; 32]];
    let mut rig = Rig::start(&recipe, Direct, [&sources[0], &sources[1]]).unwrap();
    let all: Vec<(u32, Event)> = events(rig.engaged().len(), rig.plan().messages)
        .into_iter()
        .flat_map(|event| [(0, event), (1, event)])
        .collect();
    let (mut pairs, mut gathers) = (0, 0);
    for step in 0..2 * rig.plan().steps as usize {
        let can: Vec<_> = all.iter().copied().filter(|&call| take_for(&mut rig.clone(), call).is_ok()).collect();
        for (at, &first) in can.iter().enumerate() {
            for &second in &can[..at] {
                let (mut one, mut other) = (rig.clone(), rig.clone());
                take_for(&mut one, first).unwrap();
                take_for(&mut other, second).unwrap();
                if matches!(first.1, Turn(_)) && first.1 == second.1 {
                    // two offices, one processor: both gather, and only one can go first
                    assert_eq!(take_for(&mut one, second), Err(Refusal::Engaged));
                    assert_eq!(take_for(&mut other, first), Err(Refusal::Engaged));
                    gathers += 1;
                    continue;
                }
                assert_eq!((take_for(&mut one, second), take_for(&mut other, first)), (Ok(()), Ok(())));
                assert!(one.areas() == other.areas() && one.engaged() == other.engaged());
                pairs += 1;
            }
        }
        take_for(&mut rig, can[step % can.len()]).unwrap();
    }
    assert!(pairs > 100 && gathers > 5, "{pairs} pairs, {gathers} of two gathers");
    assert!(rig.collect(0).is_ok() && rig.collect(1).is_ok());
}

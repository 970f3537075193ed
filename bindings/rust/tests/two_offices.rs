//! Row D of document 01 for two offices on one rig, request W-208, step by step: four cells in a line, in tiles of two on two
//! processors. The numbers and words expected are worked out from the papers.

use rolwyddac::{
    summary, sweep, tenant_collect, tenant_deliver, tenant_turn, view_words, Areas, Fields, Progress, Recipe, Refusal,
    Rig,
    Route::{self, Direct, Indirect},
    Viewed,
};

const FIRST: [u32; 4] = [1; 4];
const SECOND: [u32; 4] = [2; 4];

fn row_d() -> Recipe {
    Fields::new().dimension(4, 2, 2).dimension(1, 1, 0).distance(&[1, 0], 1).close(0, 0).unwrap()
}

#[test]
fn a_run_step_by_step() {
    let recipe = row_d();
    let mut rig = Rig::start(&recipe, Direct, [&FIRST, &SECOND]).unwrap();
    assert_eq!(rig.engaged(), [2, 2]);
    assert_eq!(rig.turn(0, 1), Err(Refusal::Waiting));
    // a gather engages processor 0; office 1 may still try processor 1
    assert_eq!(rig.turn(0, 0), Ok(()));
    assert_eq!(rig.engaged(), [0, 2]);
    assert_eq!((rig.turn(1, 0), rig.turn(1, 1)), (Err(Refusal::Engaged), Err(Refusal::Waiting)));
    // it is held while the tile is calculated and its message is to be sent, and free after that
    assert_eq!((rig.turn(0, 0), rig.turn(1, 0)), (Ok(()), Err(Refusal::Engaged)));
    assert_eq!(rig.turn(0, 0), Ok(()));
    assert_eq!((rig.engaged(), rig.in_flight(0), rig.in_flight(1)), (&[2, 2][..], vec![0], vec![]));
    assert_eq!(rig.turn(1, 0), Ok(()));
    // held by the other, but no tiles left: finished and not engaged
    assert_eq!((rig.turn(0, 0), rig.engaged()), (Err(Refusal::Finished), &[1, 2][..]));
    // each office has messages of its own
    assert_eq!((rig.deliver(1, 0), rig.deliver(0, 0)), (Err(Refusal::NoMail), Ok(())));
    assert_eq!((rig.turn(0, 1), rig.collect(0)), (Ok(()), Err(Refusal::Early)));
    assert_eq!(rig.engaged(), [1, 0]);
    // a tile that sends nothing is done once it is calculated
    assert_eq!((rig.turn(0, 1), rig.engaged()), (Ok(()), &[1, 2][..]));
    assert_eq!((rig.collect(0), rig.collect(1)), (Ok(vec![1, 2, 3, 4]), Err(Refusal::Early)));
    assert_eq!(rig.finish(), Ok([0, 5]));
    assert_eq!((rig.collect(0), rig.collect(1)), (Ok(vec![1, 2, 3, 4]), Ok(vec![2, 4, 6, 8])));
}

#[test]
fn a_view_shows_the_office_named() {
    let recipe = row_d();
    let mut rig = Rig::start(&recipe, Direct, [&FIRST, &SECOND]).unwrap();
    rig.finish().unwrap();
    assert_eq!((rig.view(0, 0), rig.view(0, 1)), (Ok(&[1, 2, 0, 0][..]), Ok(&[0, 2, 3, 4][..])));
    assert_eq!((rig.view(1, 0), rig.view(1, 1)), (Ok(&[2, 4, 0, 0][..]), Ok(&[0, 4, 6, 8][..])));
    assert_eq!((rig.view(0, 2), rig.view(2, 0)), (Err(Refusal::NoSuch), Err(Refusal::NoSuch)));
    let memories = [7; 8];
    assert_eq!(view_words(&recipe, &memories, &memories, 1, 1), Ok(Viewed { begin: 4, length: 4 }));
    // a wrong length comes before the office's number
    assert_eq!(view_words(&recipe, &memories, &memories[1..], 2, 9), Err(Refusal::Area));
    assert_eq!(view_words(&recipe[..63], &memories, &memories, 0, 0), Err(Refusal::Ragged));
}

/// One turn of processor 0 lent fresh areas, with these engaged words, these records of the other office and this office number.
fn turn_with(engaged: &mut [u32], other: &[Progress], office: u32) -> Result<(), Refusal> {
    let recipe = row_d();
    let mut areas = Areas::sized(&summary(&recipe, Direct).unwrap());
    let Areas { memories, buffer, progress, status } = &mut areas;
    tenant_turn(&recipe, Direct, &FIRST, memories, buffer, progress, status, engaged, other, office, 0)
}

#[test]
fn engaged_words_agree_with_the_stages() {
    let idle = [Progress::default(); 2];
    let busy = [Progress { finished: 0, stage: 1, sent: 0 }, Progress::default()];
    for (words, other, office, number) in [
        (vec![2, 2], idle, 0, Ok(())),
        (vec![1, 2], busy, 0, Err(Refusal::Engaged)),
        (vec![0, 2], busy, 1, Err(Refusal::Engaged)),
        // held by one whose stage is 0; free, but the other's stage is 1; no such office
        (vec![0, 2], idle, 0, Err(Refusal::Unfit)),
        (vec![1, 2], idle, 0, Err(Refusal::Unfit)),
        (vec![2, 2], busy, 0, Err(Refusal::Unfit)),
        (vec![2, 3], idle, 0, Err(Refusal::Unfit)),
        // the office's number before 10, a length before both
        (vec![2, 3], idle, 2, Err(Refusal::NoSuch)),
        (vec![2], idle, 2, Err(Refusal::Area)),
    ] {
        let mut engaged = words.clone();
        assert_eq!(turn_with(&mut engaged, &other, office), number);
        assert_eq!(engaged, if number.is_ok() { vec![office, 2] } else { words });
    }
    assert_eq!(turn_with(&mut [2, 2], &idle[1..], 0), Err(Refusal::Area));
    let unfit = [Progress { finished: 2, stage: 0, sent: 0 }, Progress::default()];
    assert_eq!(turn_with(&mut [2, 2], &unfit, 0), Err(Refusal::Unfit));
}

#[test]
fn no_such_office() {
    let recipe = row_d();
    let mut rig = Rig::start(&recipe, Direct, [&FIRST, &SECOND]).unwrap();
    let before = rig.clone();
    for office in [2, u32::MAX] {
        assert_eq!(rig.turn(office, 0), Err(Refusal::NoSuch));
        assert_eq!(rig.deliver(office, 0), Err(Refusal::NoSuch));
        assert_eq!(rig.collect(office), Err(Refusal::NoSuch));
    }
    assert!(rig.areas() == before.areas() && rig.engaged() == before.engaged());
    let Areas { memories, buffer, progress, status } = &before.areas()[0];
    let (other, engaged) = (&before.areas()[1].progress, before.engaged());
    let (mut marks, mut grid) = (status.clone(), [9; 4]);
    assert_eq!(
        tenant_deliver(&recipe, Direct, &FIRST, memories, buffer, progress, &mut marks, &engaged[1..], other, 2, 0),
        Err(Refusal::Area)
    );
    assert_eq!(
        tenant_collect(&recipe, Direct, &FIRST, memories, buffer, progress, status, engaged, &other[1..], 2, &mut grid),
        Err(Refusal::Area)
    );
    assert_eq!((marks, grid), (status.clone(), [9; 4]));
    assert_eq!(Rig::start(&recipe, Direct, [&FIRST, &SECOND[1..]]).err(), Some(Refusal::Area));
    assert_eq!(Rig::start(&recipe[..63], Direct, [&FIRST, &SECOND]).err(), Some(Refusal::Ragged));
}

/// A rig in three dimensions, run to the end with one office ahead of the other by some of its turns.
fn ahead(route: Route, turns: u32) {
    let fields = Fields::new().dimension(8, 4, 2).dimension(8, 4, 2).dimension(8, 4, 0);
    let recipe = fields.distance(&[2, 1, 0], 1).distance(&[1, 0, 1], 3).close(1, 5).unwrap();
    let sources: [Vec<u32>; 2] = [(0..512).collect(), vec![9; 512]];
    let mut rig = Rig::start(&recipe, route, [&sources[0], &sources[1]]).unwrap();
    let mut steps = [0; 2];
    for turn in 0..turns {
        let (office, processor) = (u32::from(turn % 5 == 0), turn % 4);
        steps[office as usize] += u32::from(rig.turn(office, processor).is_ok());
    }
    let left = rig.finish().unwrap();
    for office in [0, 1] {
        let (at, mut swept) = (office as usize, vec![0; 512]);
        sweep(&recipe, &sources[at], &mut swept).unwrap();
        assert_eq!(steps[at] + left[at], rig.plan().steps);
        assert!(rig.collect(office).unwrap() == swept);
    }
}

#[test]
fn both_grids_are_their_sweeps_on_either_route() {
    for route in [Direct, Indirect] {
        for turns in [0, 1, 7, 40] {
            ahead(route, turns);
        }
    }
}

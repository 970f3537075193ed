//! Row D of document 01 by the hours, request W-212: four cells in a line, in tiles of two on two processors. The numbers and words
//! expected are worked out from the papers.

use rolwyddac::{opens, opens_words, Fields, Opening, Opens, Recipe, Refusal, Rig, Route::Direct, Run};

fn row_d() -> Recipe {
    Fields::new().dimension(4, 2, 2).dimension(1, 1, 0).distance(&[1, 0], 1).close(0, 0).unwrap()
}

/// A table of hours from the windows of each of two processors.
fn table(windows: [&[[u32; 2]]; 2]) -> Vec<u32> {
    let row = |pairs: &[[u32; 2]]| pairs.iter().chain(&[[0, 0]; 14]).take(14).flatten().copied().collect::<Vec<u32>>();
    windows.iter().flat_map(|pairs| row(pairs)).collect()
}

#[test]
fn a_run_by_the_hours() {
    let (recipe, hours) = (row_d(), table([&[[10, 20]], &[[0, 1], [10079, 10080]]]));
    let mut run = Run::start(&recipe, Direct, &[1; 4]).unwrap();
    // the open minute is in the window, the close minute is not; closed comes before waiting
    assert_eq!((run.turn_at(&hours, 9, 0), run.turn_at(&hours, 10, 0)), (Err(Refusal::Closed), Ok(())));
    assert_eq!((run.turn_at(&hours, 20, 0), run.turn_at(&hours, 19, 0)), (Err(Refusal::Closed), Ok(())));
    assert_eq!((run.turn_at(&hours, 5, 1), run.turn_at(&hours, 0, 1)), (Err(Refusal::Closed), Err(Refusal::Waiting)));
    assert_eq!(run.turn_at(&hours, 12, 0), Ok(()));
    // closed and finished
    assert_eq!(
        (run.turn_at(&hours, 12, 0), run.turn_at(&hours, 30, 0)),
        (Err(Refusal::Finished), Err(Refusal::Closed))
    );
    assert_eq!(
        (run.opens(&hours, 30, 0), run.opens(&hours, 30, 1)),
        (Ok(Opening::OpensIn(10060)), Ok(Opening::OpensIn(10049)))
    );
    // mail has no hours
    assert_eq!(run.deliver(0), Ok(()));
    assert_eq!((run.turn_at(&hours, 10079, 1), run.turn_at(&hours, 0, 1)), (Ok(()), Ok(())));
    assert_eq!(run.collect(), Ok(vec![1, 2, 3, 4]));
    // a faulty window of the other processor, a faulty minute, a processor too high, a table too short
    let faulty = table([&[[10, 20]], &[[5, 5]]]);
    assert_eq!(
        (run.turn_at(&faulty, 12, 0), run.turn_at(&hours, 10080, 9)),
        (Err(Refusal::Hours), Err(Refusal::Hours))
    );
    assert_eq!(
        (run.turn_at(&hours, 12, 2), run.turn_at(&hours[1..], 10080, 9)),
        (Err(Refusal::NoSuch), Err(Refusal::Area))
    );
}

#[test]
fn two_offices_by_the_hours() {
    let (recipe, hours) = (row_d(), table([&[[10, 20]], &[[10, 20]]]));
    let mut rig = Rig::start(&recipe, Direct, [&[1; 4], &[2; 4]]).unwrap();
    assert_eq!((rig.turn_at(&hours, 10, 0, 0), rig.turn_at(&hours, 10, 1, 0)), (Ok(()), Err(Refusal::Engaged)));
    // closed and held; the processor stays engaged while it is closed
    assert_eq!(
        (rig.turn_at(&hours, 20, 1, 0), rig.turn_at(&hours, 20, 0, 0)),
        (Err(Refusal::Closed), Err(Refusal::Closed))
    );
    assert_eq!(rig.engaged(), [0, 2]);
    assert_eq!(
        (rig.turn_at(&hours, 20, 2, 0), rig.opens(&hours, 20, 0)),
        (Err(Refusal::NoSuch), Ok(Opening::OpensIn(10070)))
    );
    for _ in 0..2 {
        assert_eq!(rig.turn_at(&hours, 19, 0, 0), Ok(()));
    }
    assert_eq!((rig.turn_at(&hours, 19, 0, 0), rig.turn_at(&hours, 19, 1, 0)), (Err(Refusal::Finished), Ok(())));
}

#[test]
fn when_a_processor_opens() {
    let (recipe, hours) = (row_d(), table([&[[500, 600], [90, 100]], &[]]));
    for (minute, wait) in [(0, 90), (89, 1), (90, 0), (99, 0), (100, 400), (599, 0), (600, 9570), (10079, 91)] {
        assert_eq!(opens(&recipe, &hours, minute, 0), Ok(Opening::OpensIn(wait)), "minute {minute}");
    }
    assert_eq!(opens(&recipe, &hours, 0, 1), Ok(Opening::Never));
    assert_eq!(
        (opens(&recipe, &hours, 0, 2), opens(&recipe, &hours, 10080, 2)),
        (Err(Refusal::NoSuch), Err(Refusal::Hours))
    );
    assert_eq!(opens_words(&recipe, &hours, 80, 0), Ok(Opens { opens: 1, minutes: 10 }));
    assert_eq!(opens_words(&recipe, &hours, 80, 1), Ok(Opens { opens: 0, minutes: 0 }));
    assert_eq!(opens_words(&recipe, &hours[1..], 10080, 2), Err(Refusal::Area));
}

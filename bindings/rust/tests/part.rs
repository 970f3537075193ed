//! Processors with memory for their own parts alone: the seven calls on row D, and whole runs in drawn orders whose grid is the sweep.

use rolwyddac::{
    part_collect, part_messages, part_messages_words, part_sizes, part_source, part_turn, summary, sweep, Awaited,
    Fields, PartBoard, PartRow, PartSizes, Progress, Recipe, Refusal,
    Route::{self, Direct, Indirect},
};

fn row_d() -> Recipe {
    Fields::new().dimension(4, 2, 2).dimension(1, 1, 0).distance(&[1, 0], 1).close(0, 0).unwrap()
}

/// Two spread dimensions, with corner messages.
fn corners() -> Recipe {
    let fields = Fields::new().dimension(5, 2, 2).dimension(4, 2, 2).dimension(3, 1, 0);
    fields.distance(&[1, 1, 0], 3).distance(&[0, 1, 1], 2).distance(&[1, 0, 0], 1).close(1, 5).unwrap()
}

/// More processors than tiles: the last two have none.
fn idle() -> Recipe {
    Fields::new().dimension(4, 2, 4).dimension(3, 2, 0).distance(&[1, 0], 2).distance(&[0, 1], 1).close(0, 7).unwrap()
}

/// A triangle: cells outside the shape belong to no processor.
fn triangle() -> Recipe {
    let fields = Fields::new().dimension(6, 2, 3).dimension(6, 2, 0).at_least(1, 0, 1, 0);
    fields.distance(&[1, 1], 1).distance(&[0, 1], 2).close(0, 9).unwrap()
}

#[test]
fn row_d_step_by_step() {
    let recipe = row_d();
    let sizes = [(0, 2), (1, 3)].map(|(b, memory)| (b, PartSizes { source: 2, memory, mail: 1, messages: 1 }));
    for (b, sizes) in sizes {
        assert_eq!(part_sizes(&recipe, Direct, b), Ok(sizes));
        let rows = part_messages(&recipe, Direct, b).unwrap();
        let line = rolwyddac::message(&recipe, Direct, 0).unwrap();
        assert_eq!(rows, [PartRow { message: 0, line, place: 0 }]);
    }
    let source = [1, 2].map(|word| [word; 2]);
    assert_eq!(part_source(&recipe, &[1, 1, 2, 2], 1).unwrap(), source[1]);
    let mut first = PartBoard::start(&recipe, Direct, &source[0], 0).unwrap();
    let mut second = PartBoard::start(&recipe, Direct, &source[1], 1).unwrap();
    assert_eq!(PartBoard::start(&recipe, Direct, &source[0], 2).unwrap_err(), Refusal::NoSuch);
    assert_eq!(PartBoard::start(&recipe, Direct, &[], 2).unwrap_err(), Refusal::NoSuch);
    assert_eq!(PartBoard::start(&recipe, Direct, &[], 1).unwrap_err(), Refusal::Area);
    assert_eq!((second.turn(), first.post(0)), (Err(Refusal::Waiting), Err(Refusal::NoMail)));
    assert_eq!(second.awaited(), Some(Awaited { tile: 1, messages: vec![0] }));
    let mut grid = [8; 4];
    assert_eq!((first.collect(&mut grid), grid), (Err(Refusal::Early), [8; 4]));
    (0..3).for_each(|_| first.turn().unwrap());
    assert_eq!(first.turn(), Err(Refusal::Finished));
    assert_eq!((first.in_flight(), first.post(1)), (vec![0], Err(Refusal::NoSuch)));
    assert_eq!((first.post(0), first.in_flight()), (Ok((1, vec![2])), vec![]));
    let before = second.areas().clone();
    assert_eq!(second.arrive(0, &[2, 2]), Err(Refusal::Area));
    assert_eq!(second.arrive(1, &[2]), Err(Refusal::NoSuch));
    assert_eq!(first.arrive(0, &[2]), Err(Refusal::NoSuch));
    assert_eq!(second.areas(), &before);
    assert_eq!((second.arrive(0, &[2]), second.arrive(0, &[9])), (Ok(()), Err(Refusal::NoMail)));
    assert_eq!((&second.areas().mail[..], &second.areas().marks[..]), (&[2][..], &[2][..]));
    assert_eq!(second.awaited(), None);
    (0..2).for_each(|_| second.turn().unwrap());
    assert_eq!(second.areas().memory, [2, 4, 6]);
    assert_eq!((second.collect(&mut grid), grid), (Ok(()), [8, 8, 4, 6]));
    assert_eq!((first.collect(&mut grid), grid), (Ok(()), [1, 2, 4, 6]));
}

#[test]
fn lengths_behind_the_processor() {
    let recipe = row_d();
    for length in [0, 3, 5, 6, 8] {
        let mut out = vec![8; length];
        for (processor, refusal) in [(0, Refusal::Area), (2, Refusal::NoSuch), (u32::MAX, Refusal::NoSuch)] {
            assert_eq!(part_messages_words(&recipe, Direct, processor, &mut out), Err(refusal));
        }
        assert_eq!(out, vec![8; length]);
    }
    for processor in [2, u32::MAX] {
        assert_eq!(part_sizes(&recipe, Direct, processor), Err(Refusal::NoSuch));
    }
    // of the first processor: source, memory, mail, records, marks
    for lengths in
        [[1, 2, 1, 1, 1], [2, 3, 1, 1, 1], [2, 2, 0, 1, 1], [2, 2, 1, 0, 1], [2, 2, 1, 2, 1], [2, 2, 1, 1, 2]]
    {
        let [words, kept, sent, records, bytes] = lengths;
        let (source, mut memory, mut mail, mut marks) = (vec![1; words], vec![8; kept], vec![8; sent], vec![9; bytes]);
        let mut progress = vec![Progress { finished: 7, stage: 7, sent: 7 }; records];
        for (processor, refusal) in [(0, Refusal::Area), (2, Refusal::NoSuch)] {
            let asked =
                part_turn(&recipe, Direct, &source, &mut memory, &mut mail, &mut progress, &mut marks, processor);
            assert_eq!(asked, Err(refusal));
        }
        assert_eq!((memory, mail, marks), (vec![8; kept], vec![8; sent], vec![9; bytes]));
        assert_eq!(progress, vec![Progress { finished: 7, stage: 7, sent: 7 }; records]);
    }
    let (memory, progress, mut grid) = ([8; 2], [Progress::default()], [8; 5]);
    assert_eq!(part_collect(&recipe, Direct, &memory, &progress, 0, &mut grid), Err(Refusal::Area));
    assert_eq!(part_collect(&recipe, Direct, &memory, &progress, 2, &mut grid), Err(Refusal::NoSuch));
    assert_eq!(grid, [8; 5]);
}

/// Numbers that look random and are the same at every run.
struct Draw(u64);

impl Draw {
    fn below(&mut self, bound: usize) -> usize {
        self.0 = self.0.wrapping_mul(6364136223846793005).wrapping_add(1442695040888963407);
        (self.0 >> 33) as usize % bound
    }
}

/// Turns, posts and arrivals in a drawn order; what was posted arrives late, and again.
fn run_in_any_order(recipe: &Recipe, route: Route, seed: u64) {
    let (plan, mut draw) = (summary(recipe, route).unwrap(), Draw(seed));
    let source: Vec<u32> = (0..plan.cells).map(|_| draw.below(1 << 31) as u32).collect();
    let processors = 0..plan.processors as u32;
    let parts: Vec<Vec<u32>> = processors.clone().map(|b| part_source(recipe, &source, b).unwrap()).collect();
    let start = |b: u32| PartBoard::start(recipe, route, &parts[b as usize], b).unwrap();
    let mut boards: Vec<PartBoard> = processors.map(start).collect();
    let (mut mail, mut steps, mut again) = (Vec::<(usize, u32, Vec<u32>)>::new(), 0, 0);
    while steps < plan.steps {
        let board = draw.below(boards.len());
        match draw.below(4) {
            0 | 1 => match boards[board].turn() {
                Ok(()) => steps += 1,
                Err(Refusal::Waiting) => assert!(boards[board].awaited().is_some()),
                Err(refusal) => assert_eq!(refusal, Refusal::Finished),
            },
            2 => {
                for m in boards[board].in_flight() {
                    let (to, words) = boards[board].post(m).unwrap();
                    mail.push((to as usize, m, words));
                }
            }
            _ if mail.is_empty() => {}
            _ => {
                let (to, m, words) = mail[draw.below(mail.len())].clone();
                match boards[to].arrive(m, &words) {
                    Ok(()) => steps += 1,
                    Err(refusal) => {
                        assert_eq!(refusal, Refusal::NoMail);
                        again += 1;
                    }
                }
            }
        }
    }
    assert!(again > 0 || plan.messages < 2, "no message came again");
    let (mut grid, mut swept) = (vec![1; plan.cells], vec![0; plan.cells]);
    while !boards.is_empty() {
        boards.swap_remove(draw.below(boards.len())).collect(&mut grid).unwrap();
    }
    sweep(recipe, &source, &mut swept).unwrap();
    assert_eq!(grid, swept);
}

#[test]
fn whole_runs() {
    for seed in 0..20 {
        for recipe in [row_d(), corners(), idle()] {
            run_in_any_order(&recipe, Direct, seed);
            run_in_any_order(&recipe, Indirect, seed);
        }
        run_in_any_order(&triangle(), Direct, seed);
    }
}

#[test]
fn without_tiles() {
    let recipe = idle();
    assert_eq!(part_sizes(&recipe, Direct, 3), Ok(PartSizes { source: 0, memory: 0, mail: 0, messages: 0 }));
    let mut board = PartBoard::start(&recipe, Direct, &[], 3).unwrap();
    assert_eq!((board.turn(), board.post(0), board.awaited()), (Err(Refusal::Finished), Err(Refusal::NoMail), None));
    let mut grid = [8; 12];
    assert_eq!((board.collect(&mut grid), grid), (Ok(()), [8; 12]));
}

#[test]
fn outside_the_shape() {
    let recipe = triangle();
    assert_eq!(part_sizes(&recipe, Indirect, 0), Err(Refusal::DirectOnly));
    // the last processor has the tile in the corner alone: three cells of it are inside
    let board = part_sizes(&recipe, Direct, 2).unwrap();
    let progress = [Progress { finished: 1, ..Progress::default() }];
    let (memory, mut grid) = (vec![4; board.memory as usize], [8; 36]);
    part_collect(&recipe, Direct, &memory, &progress, 2, &mut grid).unwrap();
    let place = |c: usize| (c / 6, c % 6);
    for (c, word) in grid.into_iter().enumerate() {
        let (i, j) = place(c);
        assert_eq!(
            word,
            if j < i {
                9
            } else if i >= 4 {
                4
            } else {
                8
            },
            "cell {c}"
        );
    }
}

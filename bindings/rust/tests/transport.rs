//! Processors that share no memory: each has all areas to itself, and messages are carried between them by their words.

use rolwyddac::{
    awaited_words, message, messages, messages_words, owners, owners_words, summary, sweep, Awaited, Board, Fields,
    Recipe, Refusal,
    Route::{self, Direct, Indirect},
    Row, Run,
};

fn row_d() -> Recipe {
    Fields::new().dimension(4, 2, 2).dimension(1, 1, 0).distance(&[1, 0], 1).close(0, 0).unwrap()
}

/// row C of document 01: two spread dimensions
fn row_c() -> Recipe {
    let fields = Fields::new().dimension(8, 4, 2).dimension(8, 4, 2).dimension(8, 4, 0);
    fields.distance(&[2, 1, 0], 1).close(0, 0).unwrap()
}

#[test]
fn row_d_step_by_step() {
    let (recipe, source) = (row_d(), [1; 4]);
    let rows = messages(&recipe, Direct).unwrap();
    assert_eq!(rows, [Row { line: message(&recipe, Direct, 0).unwrap(), offset: 0 }]);
    assert_eq!(owners(&recipe).unwrap(), [Some(0), Some(0), Some(1), Some(1)]);
    let [mut first, mut second] = [0, 1].map(|b| Board::start(&recipe, Direct, &source, b).unwrap());
    assert_eq!(Board::start(&recipe, Direct, &source, 2).unwrap_err(), Refusal::NoSuch);
    assert_eq!(first.awaited(), Ok(Awaited { tile: 0, messages: vec![] }));
    assert_eq!(second.awaited(), Ok(Awaited { tile: 1, messages: vec![0] }));
    assert_eq!(first.post(0), Err(Refusal::NoMail));
    (0..3).for_each(|_| first.turn().unwrap());
    assert_eq!(first.awaited(), Err(Refusal::Finished));
    assert_eq!(first.in_flight(), [0]);
    assert_eq!(first.post(0), Ok((1, vec![2])));
    assert_eq!(first.in_flight(), []);
    let before = second.areas().clone();
    assert_eq!(second.take_in(0, &[2, 2]), Err(Refusal::Area));
    assert_eq!(second.take_in(1, &[2]), Err(Refusal::NoSuch));
    assert_eq!(second.areas(), &before);
    // at its sender's it is another's
    assert_eq!(first.take_in(0, &[2]), Err(Refusal::NoSuch));
    assert_eq!(second.take_in(0, &[2]), Ok(()));
    assert_eq!((&second.areas().buffer[..], &second.areas().status[..]), (&[2][..], &[2][..]));
    assert_eq!(second.take_in(0, &[9]), Err(Refusal::NoMail));
    assert_eq!(second.awaited(), Ok(Awaited { tile: 1, messages: vec![] }));
    (0..2).for_each(|_| second.turn().unwrap());
    assert_eq!(second.memory(), [0, 2, 3, 4]);
}

#[test]
fn areas_of_other_lengths() {
    let recipe = row_d();
    let run = Run::start(&recipe, Direct, &[1; 4]).unwrap();
    let (progress, status) = (&run.areas().progress[..], &run.areas().status[..]);
    for length in [0, 5, 7] {
        let mut out = vec![8; length];
        assert_eq!(messages_words(&recipe, Direct, &mut out), Err(Refusal::Area));
        assert_eq!(owners_words(&recipe, &mut out), Err(Refusal::Area));
        assert_eq!(out, vec![8; length]);
    }
    for (records, bytes, many) in [(1, 1, 1), (2, 0, 1), (2, 1, 0), (2, 1, 2)] {
        let mut marks = vec![8; many];
        let asked = awaited_words(&recipe, Direct, &progress[..records], &status[..bytes], 0, &mut marks);
        assert_eq!((asked, marks), (Err(Refusal::Area), vec![8; many]));
    }
}

/// A message posted is carried at the end of the round, and once more at the end of the next.
fn run_apart(recipe: &Recipe, route: Route) {
    let plan = summary(recipe, route).unwrap();
    let rows = messages(recipe, route).unwrap();
    let source: Vec<u32> = (1..).take(plan.cells).collect();
    let numbers = 0..plan.processors as u32;
    let mut boards: Vec<Board> = numbers.map(|b| Board::start(recipe, route, &source, b).unwrap()).collect();
    let (mut mail, mut again, mut steps) = (vec![], Vec::<(usize, u32, Vec<u32>)>::new(), 0);
    while steps < plan.steps {
        let before = steps;
        for (b, board) in (0..).zip(&mut boards) {
            match board.turn() {
                Ok(()) => steps += 1,
                Err(Refusal::Waiting) => assert!(!board.awaited().unwrap().messages.is_empty()),
                Err(refusal) => assert_eq!(refusal, Refusal::Finished),
            }
            for m in board.in_flight() {
                let (to, words) = board.post(m).unwrap();
                let line = rows[m as usize].line;
                assert_eq!((line.sending_processor, line.taking_processor, line.words), (b, to, words.len() as u32));
                mail.push((to as usize, m, words));
            }
        }
        for (to, m, words) in again.drain(..) {
            assert_eq!(boards[to].take_in(m, &words), Err(Refusal::NoMail));
        }
        for (to, m, words) in mail.drain(..) {
            boards[to].take_in(m, &words).unwrap();
            steps += 1;
            again.push((to, m, words));
        }
        assert!(steps > before, "no processor goes on");
    }
    let mut grid = vec![0; plan.cells];
    sweep(recipe, &source, &mut grid).unwrap();
    for (c, owner) in owners(recipe).unwrap().into_iter().enumerate() {
        let owner = owner.expect("no cell of a box is outside");
        assert_eq!(boards[owner as usize].memory()[c], grid[c], "cell {c}");
    }
}

#[test]
fn whole_runs() {
    for recipe in [row_d(), row_c()] {
        run_apart(&recipe, Direct);
        run_apart(&recipe, Indirect);
    }
}

#[test]
fn outside_the_shape() {
    // two rows of four cells, of which the last two of each are outside
    let fields = Fields::new().dimension(2, 1, 2).dimension(4, 2, 0).at_most(1, 0, 0, 1);
    let recipe = fields.distance(&[1, 0], 1).close(0, 0).unwrap();
    let owner = |b| [Some(b), Some(b), None, None];
    assert_eq!(owners(&recipe).unwrap(), [owner(0), owner(1)].concat());
    let mut out = [8; 8];
    owners_words(&recipe, &mut out).unwrap();
    assert_eq!(out, [0, 0, 2, 2, 1, 1, 2, 2]);
}

//! Trials of runs by rounds (W-213), and of what is said of their number.

use super::{any_state, other_length, words, wrong_lengths, Outcome, Pair};
use crate::engine::{Engine, ROUNDS_WORDS};
use crate::model::Plan;
use crate::rng::Rng;

impl Pair<'_> {
    /// the number and the rounds told
    fn rounds(&mut self) -> Outcome<(u32, u32)> {
        let (mut theirs, mut ours) = ([7; ROUNDS_WORDS], [8; ROUNDS_WORDS]);
        let numbers = (
            self.engine.rounds(&self.encoded, &mut self.theirs, &mut theirs),
            self.model.rounds(&self.encoded, &mut self.ours, &mut ours),
        );
        Ok((self.compare("rounds", &String::new, numbers, (&theirs, &ours))?, ours[0]))
    }

    fn rounds_of(&mut self, rounds: &mut [u32]) -> Outcome<u32> {
        let mut told = rounds.to_vec();
        let theirs = self.engine.rounds_of(&self.encoded, &mut told);
        let ours = self.model.rounds_of(&self.encoded, rounds);
        self.compare("rounds_of", &String::new, (theirs, ours), (&told, rounds))
    }
}

/// The rounds of some other plan of whole tiles: one tile a round at most for each processor, in its order, mail at the
/// end of the round; a processor that could go on now and then waits.
fn other_plan(rng: &mut Rng, plan: &Plan) -> u32 {
    let mut done: Vec<Option<u32>> = vec![None; plan.cells_of_tile.len()];
    let mut finished = vec![0; plan.processors];
    let mut rounds = 0;
    while done.contains(&None) {
        rounds += 1;
        for (processor, tiles) in plan.tiles_of_processor.iter().enumerate() {
            let Some(&tile) = tiles.get(finished[processor]) else { continue };
            let mut senders = plan.dues[tile].iter().map(|&message| plan.messages[message].sender);
            if senders.all(|sender| done[sender].is_some_and(|round| round < rounds)) && !rng.one_in(8) {
                done[tile] = Some(rounds);
                finished[processor] += 1;
            }
        }
    }
    rounds
}

/// the driver over any words, its number against the tiles' rounds and other plans; lengths that are not right
pub fn any(pair: &mut Pair, rng: &mut Rng, plan: &Plan) -> Outcome<()> {
    let failed = |detail: String| Err(("run by rounds".to_string(), detail));
    let tiles = plan.cells_of_tile.len();
    let areas = any_state(rng, plan);
    pair.lend(areas);
    let mut rounds = words(rng, tiles);
    let (number, told) = pair.rounds()?;
    if [number, pair.rounds_of(&mut rounds)?] != [0, 0] {
        return Ok(());
    }
    if rounds.iter().max() != Some(&told) {
        return failed(format!("{} rounds, and the last tile's is {:?}", told, rounds.iter().max()));
    }
    let other = other_plan(rng, plan);
    if other < told {
        return failed(format!("{} rounds, and another plan takes {other}", told));
    }
    let (mut grid, mut swept) = (words(rng, plan.cells), words(rng, plan.cells));
    let number = pair.collect(&mut grid)?;
    let source = pair.ours.source.clone();
    pair.sweep(&source, &mut swept)?;
    if number != 0 || grid != swept {
        return failed(format!("collecting gave {number}, and not the words of the sweep"));
    }
    pair.tally.runs += 1;
    wrong(pair, rng, plan)
}

/// lengths that are not right, and a recipe that may be damaged
pub fn wrong(pair: &mut Pair, rng: &mut Rng, plan: &Plan) -> Outcome<()> {
    let mut areas = any_state(rng, plan);
    if !rng.one_in(4) {
        wrong_lengths(rng, &mut areas);
    }
    pair.lend(areas);
    pair.rounds()?;
    let length = other_length(rng, plan.cells_of_tile.len());
    pair.rounds_of(&mut words(rng, length)).map(|_| ())
}

/// for a recipe that may be damaged, over the areas as they are
pub fn damaged(pair: &mut Pair, rng: &mut Rng) -> Outcome<()> {
    pair.rounds()?;
    pair.rounds_of(&mut words(rng, 3)).map(|_| ())
}

//! The stored runs by rounds, `bindings/cases/rounds`: numbers, the rounds told, each tile's round, every lent word.

use rolwyddac::{collect, rounds, rounds_of_words, sweep, Progress, Refusal, Route};
use std::fmt::Write;

fn number(result: Result<(), Refusal>) -> u32 {
    result.err().map_or(0, Refusal::number)
}

fn fold_words(h: u32, words: impl ExactSizeIterator<Item = u32>) -> u32 {
    let fold = |h: u32, x: u32| h.wrapping_mul(16777619).wrapping_add(x);
    let first = fold(h, words.len() as u32);
    words.fold(first, fold)
}

fn joined(words: &[u32]) -> String {
    words.iter().map(u32::to_string).collect::<Vec<_>>().join(" ")
}

#[test]
fn every_answer_is_the_models() {
    let mut left: &[u8] = include_bytes!("../../cases/rounds/cases");
    let mut printed = String::new();
    let mut case = 0;
    while !left.is_empty() {
        let word = |i: usize| u32::from_le_bytes(left[4 * i..4 * i + 4].try_into().unwrap()) as usize;
        let [encoded, cells, memories, buffer, records, status, tiles] = std::array::from_fn(word);
        let (encoded, rest) = left[28..].split_at(encoded);
        left = rest;
        let drawn = |n: usize| -> Vec<u32> { (0..n as u32).map(|j| 3_000_000_000 + j).collect() };
        let source: Vec<u32> = (0..cells as u32).map(|j| j.wrapping_mul(2654435761).wrapping_add(7)).collect();
        let (mut memories, mut buffer, mut of_tiles) = (drawn(memories), drawn(buffer), drawn(tiles));
        let record = |j: u32| Progress { finished: 77 + 3 * j, stage: 78 + 3 * j, sent: 79 + 3 * j };
        let mut progress: Vec<Progress> = (0..records as u32).map(record).collect();
        let mut status: Vec<u8> = (0..status).map(|j| (j % 251) as u8).collect();

        let driven = rounds(encoded, &source, &mut memories, &mut buffer, &mut progress, &mut status);
        let told = driven.unwrap_or(0);
        let numbers = [number(driven.map(|_| ())), number(rounds_of_words(encoded, &mut of_tiles))];
        let words: Vec<u32> = progress.iter().flat_map(|p| [p.finished, p.stage, p.sent]).collect();
        let h = fold_words(fold_words(2166136261, memories.iter().copied()), buffer.iter().copied());
        let h = fold_words(fold_words(h, words.into_iter()), status.iter().map(|&mark| u32::from(mark)));
        writeln!(printed, "case {case}\n{}\n{told}\n{h}\n{}", joined(&numbers), joined(&of_tiles)).unwrap();
        if driven.is_ok() {
            let (mut grid, mut swept) = (vec![0; cells], vec![1; cells]);
            let route = Route::Direct;
            collect(encoded, route, &source, &memories, &buffer, &progress, &status, &mut grid).expect("collected");
            sweep(encoded, &source, &mut swept).expect("swept");
            assert_eq!(grid, swept, "case {case}");
        }
        case += 1;
    }
    let answers = include_str!("../../cases/rounds/answers");
    for (i, (ours, theirs)) in printed.lines().zip(answers.lines()).enumerate() {
        assert_eq!(ours, theirs, "line {}", i + 1);
    }
    assert_eq!(printed.len(), answers.len());
}

//! The stored files of soundings, `bindings/cases/soundings`: every call's number and every word of the lent source.

use rolwyddac::{soundings, Refusal};
use std::fmt::Write;

#[test]
fn every_answer_is_the_models() {
    let mut left: &[u8] = include_bytes!("../../cases/soundings/cases");
    let mut take = |n: usize| -> Option<Vec<u8>> {
        let (front, rest) = left.split_at_checked(n)?;
        left = rest;
        Some(front.to_vec())
    };
    let mut printed = String::new();
    let mut case = 0;
    while let Some(header) = take(16) {
        let word = |i: usize| u32::from_le_bytes(header[4 * i..4 * i + 4].try_into().unwrap());
        let encoded = take(word(0) as usize).unwrap();
        let file = take(word(1) as usize).unwrap();
        let mut source: Vec<u32> = (0..word(3)).map(|j| 3_000_000_000 + j).collect();
        let number = soundings(&encoded, &file, word(2), &mut source).err().map_or(0, Refusal::number);
        writeln!(printed, "case {case}\n{number}").unwrap();
        source.iter().for_each(|x| write!(printed, "{x} ").unwrap());
        printed.push('\n');
        case += 1;
    }
    let answers = include_str!("../../cases/soundings/answers");
    for (i, (ours, theirs)) in printed.lines().zip(answers.lines()).enumerate() {
        assert_eq!(ours, theirs, "line {}", i + 1);
    }
    assert_eq!(printed.len(), answers.len());
}

//! Sources filled from soundings (W-210), on four cells in a line and on the largest box.

use rolwyddac::{soundings, Fields, Recipe, Refusal, Sounding};

fn recipe(length: u16, width: u16) -> Recipe {
    Fields::new().dimension(length, 16, 2).dimension(width, 16, 0).distance(&[1, 0], 1).close(0, 0).unwrap()
}

fn file(records: &[[u32; 4]]) -> Vec<u8> {
    let sounding = |&[cell, day, survey, depth]: &[u32; 4]| Sounding { cell, day, survey, depth }.bytes();
    records.iter().flat_map(sounding).collect()
}

/// four cells filled with 9 where no record names them
fn filled(records: &[[u32; 4]]) -> [u32; 4] {
    let mut source = [1; 4];
    soundings(&recipe(4, 1), &file(records), 9, &mut source).unwrap();
    source
}

#[test]
fn the_record_that_counts() {
    assert_eq!(filled(&[]), [9; 4]);
    assert_eq!(filled(&[[0, 1, 1, 5], [3, 0, 0, 0]]), [5, 9, 9, 0]);
    // the day, then the survey number, then the place in the file
    assert_eq!(filled(&[[1, 2, 1, 5], [1, 1, 9, 6]])[1], 5);
    assert_eq!(filled(&[[1, 2, 3, 5], [1, 2, 2, 6]])[1], 5);
    assert_eq!(filled(&[[1, 2, 3, 5], [1, 2, 3, 6], [1, 2, 3, 4]])[1], 4);
    // without a sign
    assert_eq!(filled(&[[2, 1 << 31, 0, 5], [2, 1, 7, 6]])[2], 5);
    assert_eq!(filled(&[[2, 3, u32::MAX, 5], [2, 3, 1, 6]])[2], 5);
}

#[test]
fn refused_and_nothing_written() {
    let recipe = recipe(4, 1);
    let outside = file(&[[0, 1, 1, 5], [4, 0, 0, 6]]);
    let refused = |encoded: &[u8], file: &[u8], cells: usize| {
        let mut source = vec![1; cells];
        let refusal = soundings(encoded, file, 9, &mut source).unwrap_err();
        assert_eq!(source, vec![1; cells]);
        refusal
    };
    assert_eq!(refused(&recipe, &outside, 4), Refusal::OffTheBox);
    assert_eq!(refused(&recipe, &outside, 5), Refusal::Area);
    assert_eq!(refused(&recipe, &outside[1..], 5), Refusal::Ragged);
    assert_eq!(refused(&recipe[16..], &outside, 5), Refusal::StrayRecord);
    assert_eq!(refused(&recipe[16..], &outside[1..], 5), Refusal::Ragged);
    assert_eq!(refused(&[], &[], 4), Refusal::Ragged);
}

#[test]
fn both_ends_of_the_largest_box() {
    let recipe = recipe(1024, 16);
    let mut source = vec![1; 16384];
    soundings(&recipe, &file(&[[16383, 1, 1, 5], [0, 1, 1, 6]]), 9, &mut source).unwrap();
    assert_eq!((source[0], source[16383]), (6, 5));
    assert!(source[1..16383].iter().all(|&word| word == 9));
    assert_eq!(soundings(&recipe, &file(&[[16384, 1, 1, 5]]), 9, &mut source), Err(Refusal::OffTheBox));
}

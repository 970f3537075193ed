//! Charts: the stored cases, which the model in tools/ wrote, and what the cases leave out.

use std::fs;

use rolwyddac::{chart, chart_length, chart_words, Fields, Recipe, Refusal, LONGEST_CHART};

/// The number of a result, and the length that goes with it, 0 at a refusal.
fn told(result: Result<u32, Refusal>) -> (u32, u32) {
    match result {
        Ok(length) => (0, length),
        Err(refusal) => (refusal.number(), 0),
    }
}

/// The bytes of a file from a place on, word by word.
struct Reader<'a> {
    left: &'a [u8],
}

impl Reader<'_> {
    fn take(&mut self, count: usize) -> &[u8] {
        let (front, back) = self.left.split_at(count);
        self.left = back;
        front
    }

    fn word(&mut self) -> u32 {
        u32::from_le_bytes(self.take(4).try_into().expect("four bytes"))
    }
}

/// What the call and the call for the length print of a case, as the format of the stored file has it.
fn printed(encoded: &[u8], grid: &[u32], x: i32, y: i32, cell_size: u32, space: usize) -> Vec<u8> {
    let mut space = vec![b'#'; space];
    let (number, length) = told(chart_words(encoded, grid, x, y, cell_size, &mut space));
    let (alone, told_alone) = told(chart_length(encoded, grid, x, y, cell_size));
    let mut printed = format!("{number} {length}\n{alone} {told_alone}\n").into_bytes();
    printed.extend(space);
    printed.push(b'\n');
    printed
}

#[test]
fn stored_cases() {
    let folder = concat!(env!("CARGO_MANIFEST_DIR"), "/../cases/charts");
    let cases = fs::read(format!("{folder}/cases")).expect("the cases");
    let answers = fs::read_to_string(format!("{folder}/answers")).expect("what they give");
    let expected: Vec<&str> = answers.split("case ").skip(1).collect();
    let mut reader = Reader { left: &cases };
    let mut wrong = Vec::new();
    for (case, expected) in expected.iter().enumerate() {
        let sizes: [u32; 6] = std::array::from_fn(|_| reader.word());
        let encoded = reader.take(sizes[0] as usize).to_vec();
        let grid: Vec<u32> = (0..sizes[1]).map(|_| reader.word()).collect();
        let printed = printed(&encoded, &grid, sizes[2] as i32, sizes[3] as i32, sizes[4], sizes[5] as usize);
        if format!("{case}\n").into_bytes().into_iter().chain(printed).ne(expected.bytes()) {
            wrong.push(case);
        }
    }
    assert!(reader.left.is_empty());
    assert_eq!(wrong, [], "of {} cases", expected.len());
}

/// 128 by 128 cells.
fn square() -> Recipe {
    Fields::new().dimension(128, 16, 8).dimension(128, 16, 0).distance(&[1, 0], 1).close(0, 0).expect("a recipe")
}

#[test]
fn the_longest() {
    let (recipe, grid) = (square(), vec![u32::MAX; 16_384]);
    let length = chart_length(&recipe, &grid, i32::MIN, i32::MIN, 65_535);
    assert_eq!(length, Ok(LONGEST_CHART as u32));
    let text = chart(&recipe, &grid, i32::MIN, i32::MIN, 65_535).expect("a chart");
    assert_eq!(text.len(), LONGEST_CHART);
    assert_eq!(text.lines().count(), 6 + 128);
    assert!(text.ends_with("4294967295\n"));
}

#[test]
fn bytes_behind_the_text_stay() {
    let recipe =
        Fields::new().dimension(1, 1, 1).dimension(2, 2, 0).distance(&[0, 1], 1).close(0, 0).expect("a recipe");
    let expected = "ncols 2\nnrows 1\nxllcorner 0\nyllcorner -1\ncellsize 7\nNODATA_value -9999\n0 305\n";
    for more in [0, 1, 40] {
        let mut space = vec![7; expected.len() + more];
        assert_eq!(chart_words(&recipe, &[0, 305], 0, -1, 7, &mut space), Ok(expected.len() as u32));
        assert_eq!(&space[..expected.len()], expected.as_bytes());
        assert_eq!(space[expected.len()..], vec![7; more]);
    }
}

#[test]
fn refusals() {
    let recipe = square();
    let grid = vec![1; 16_384];
    assert_eq!(chart(&recipe, &grid, 0, 0, 0), Err(Refusal::NoChart));
    assert_eq!(chart(&recipe, &grid, 0, 0, 65_536), Err(Refusal::NoChart));
    assert_eq!(chart(&recipe, &grid[1..], 0, 0, 0), Err(Refusal::NoChart));
    assert_eq!(chart(&recipe, &grid[1..], 0, 0, 1), Err(Refusal::Area));
    assert_eq!(chart(&recipe[1..], &grid[1..], 0, 0, 0), Err(Refusal::Ragged));
    let mut space = vec![9; LONGEST_CHART];
    assert_eq!(chart_words(&recipe, &grid, 0, 0, 0, &mut space), Err(Refusal::NoChart));
    assert_eq!(chart_words(&recipe, &grid, 0, 0, 1, &mut space[..100]), Err(Refusal::Area));
    assert!(space.iter().all(|&byte| byte == 9));
}

//! Recipes read and written again: the same bytes, for every recipe of the stored plans, and other bytes where a field is another.

use rolwyddac::{read, summary, write, Recipe, Refusal, Route, Tables};

/// The bytes that the writer makes of tables.
fn written(t: &Tables) -> Result<Vec<u8>, Refusal> {
    let [dimensions, distances, bounds] = [t.dimensions, t.distances, t.bounds].map(|count| count as usize);
    let mut space = vec![0; 16 * (dimensions + distances + bounds + 1)];
    write(
        &t.lengths[..dimensions],
        &t.tiling[..dimensions],
        &t.counts[..dimensions],
        &t.components[..4 * distances],
        &t.weights[..distances],
        &t.sides[..bounds],
        &t.bounded[..bounds],
        &t.earlier[..bounds],
        &t.slopes[..bounds],
        &t.offsets[..bounds],
        t.shift,
        t.boundary,
        &mut space,
    )?;
    Ok(space)
}

/// The recipes of a file, each behind two bytes of its length, whose highest bit says the route.
fn recipes() -> Vec<Vec<u8>> {
    let file = std::fs::read(concat!(env!("CARGO_MANIFEST_DIR"), "/../../crates/cases/data/plans")).expect("the plans");
    let (mut left, mut found) = (&file[..], vec![]);
    while let [low, high, rest @ ..] = left {
        let (recipe, more) = rest.split_at(usize::from(u16::from_le_bytes([*low, *high])) & 0x7fff);
        found.push(recipe.to_vec());
        left = more;
    }
    found
}

/// What of the entries behind the last is not 0.
fn is_padded(t: &Tables) -> bool {
    let [dimensions, distances, bounds] = [t.dimensions, t.distances, t.bounds].map(|count| count as usize);
    let words = [&t.lengths[dimensions..], &t.tiling[dimensions..], &t.counts[dimensions..], &t.weights[distances..]];
    let bytes = [&t.sides[bounds..], &t.bounded[bounds..], &t.earlier[bounds..]];
    words.concat().iter().chain(&t.components[4 * distances..]).all(|&x| x == 0)
        && bytes.concat().iter().all(|&x| x == 0)
        && t.slopes[bounds..].iter().all(|&x| x == 0)
        && t.offsets[bounds..].iter().all(|&x| x == 0)
}

#[test]
fn read_and_written_again() {
    let mut accepted = 0;
    for encoded in recipes() {
        let tables = read(&encoded);
        assert_eq!(tables.err(), summary(&encoded, Route::Direct).err(), "{encoded:?}");
        let Ok(tables) = tables else {
            assert_eq!(Recipe::read(&encoded).err(), tables.err());
            continue;
        };
        assert!(is_padded(&tables), "{tables:?}");
        assert_eq!(written(&tables).as_deref(), Ok(&encoded[..]));
        let recipe = Recipe::read(&encoded).unwrap();
        let (fields, shift, boundary) = recipe.fields();
        assert_eq!((fields.close(shift, boundary).unwrap(), &recipe[..]), (recipe.clone(), &encoded[..]));
        accepted += 1;
    }
    assert!(accepted > 100, "{accepted} recipes were accepted");
}

/// A field of tables, changed.
type Change = fn(&mut Tables);

#[test]
fn another_field_is_another_recipe() {
    let changes: [Change; 15] = [
        |t| t.dimensions += 1,
        |t| t.distances -= 1,
        |t| t.bounds -= 1,
        |t| t.boundary ^= 1,
        |t| t.lengths[1] ^= 1,
        |t| t.tiling[1] ^= 1,
        |t| t.counts[0] ^= 1,
        |t| t.components[4] ^= 1,
        |t| t.weights[1] ^= 1,
        |t| t.offsets[0] ^= 1,
        |t| t.sides[0] ^= 1,
        |t| t.bounded[0] ^= 3,
        |t| t.earlier[0] ^= 1,
        |t| t.slopes[0] ^= 1,
        |t| t.shift ^= 1,
    ];
    let with_all = recipes().into_iter().filter_map(|encoded| Some((read(&encoded).ok()?, encoded)));
    let mut tried = 0;
    for (tables, encoded) in with_all.filter(|(t, _)| t.dimensions == 3 && t.distances > 1 && t.bounds > 0) {
        for (field, change) in changes.iter().enumerate() {
            let mut changed = tables;
            change(&mut changed);
            assert_ne!(written(&changed).as_deref(), Ok(&encoded[..]), "field {field}");
        }
        tried += 1;
    }
    assert!(tried > 2, "{tried} recipes have every field");
}

//! The engine's library, through the safe crate over it.

use crate::engine::{
    Areas, Engine, Part, Progress, Request, Rig, Route, CHART_WORDS, HOPS_WORDS, MESSAGE_WORDS, OPENS_WORDS,
    PART_SIZES_WORDS, ROUNDS_WORDS, SUMMARY_WORDS, VIEW_WORDS,
};
use crate::recipe::{Bound, Numbers};
use rolwyddac::Refusal;

pub struct Library;

fn number(result: Result<(), Refusal>) -> u32 {
    result.err().map_or(0, Refusal::number)
}

/// What a call tells by value: its number, and the words behind it, which are 0 at a refusal.
#[repr(C)]
struct Told<const N: usize> {
    number: u32,
    words: [u32; N],
}

/// Puts what was told into the words and gives the number.
fn told<const N: usize>(told: Told<N>, out: &mut [u32; N]) -> u32 {
    *out = told.words;
    told.number
}

/// Makes an exported call as C does, without the safe crate between. A slice goes over as its pointer and its length, a
/// number as it is.
macro_rules! exported {
    ($name:ident($($parameters:tt)*)) => { exported!(@ $name [u32] [] [] $($parameters)*) };
    ($name:ident($($parameters:tt)*) -> $told:ty) => { exported!(@ $name [$told] [] [] $($parameters)*) };
    (@ $name:ident $told:tt [$($declared:tt)*] [$($given:tt)*] $area:expr => &mut [$element:ty] $(, $($rest:tt)*)?) => {
        exported!(@ $name $told [$($declared)* *mut $element, usize,]
            [$($given)* $area.as_mut_ptr(), $area.len(),] $($($rest)*)?)
    };
    (@ $name:ident $told:tt [$($declared:tt)*] [$($given:tt)*] $area:expr => &[$element:ty] $(, $($rest:tt)*)?) => {
        exported!(@ $name $told [$($declared)* *const $element, usize,]
            [$($given)* $area.as_ptr(), $area.len(),] $($($rest)*)?)
    };
    (@ $name:ident $told:tt [$($declared:tt)*] [$($given:tt)*] $number:expr => $width:ident $(, $($rest:tt)*)?) => {
        exported!(@ $name $told [$($declared)* $width,] [$($given)* $number,] $($($rest)*)?)
    };
    (@ $name:ident [$told:ty] [$($declared:ty,)*] [$($given:expr,)*]) => {{
        extern "C" {
            fn $name($(_: $declared),*) -> $told;
        }
        // SAFETY: pointers and lengths come from slices; what is written is borrowed mutably.
        unsafe { $name($($given),*) }
    }};
}

impl Engine for Library {
    fn name(&self) -> String {
        "library".into()
    }

    fn has(&self, request: Request) -> bool {
        match request {
            Request::Offices => true,
            Request::Shapes => true,
            Request::Soundings => true,
            Request::Chart => true,
            Request::Hours => true,
            Request::Rounds => true,
            Request::Own => true,
        }
    }

    fn fresh(&self, encoded: &[u8], route: Route, areas: &mut Areas) -> u32 {
        let Areas { source, memories, buffer, progress, status } = areas;
        number(rolwyddac::fresh(encoded, route, source, memories, buffer, progress, status))
    }

    fn turn(&self, encoded: &[u8], route: Route, areas: &mut Areas, processor: u32) -> u32 {
        let Areas { source, memories, buffer, progress, status } = areas;
        number(rolwyddac::turn(encoded, route, source, memories, buffer, progress, status, processor))
    }

    fn deliver(&self, encoded: &[u8], route: Route, areas: &mut Areas, message: u32) -> u32 {
        let Areas { source, memories, buffer, progress, status } = areas;
        number(rolwyddac::deliver(encoded, route, source, memories, buffer, progress, status, message))
    }

    fn collect(&self, encoded: &[u8], route: Route, areas: &mut Areas, grid: &mut [u32]) -> u32 {
        let Areas { source, memories, buffer, progress, status } = areas;
        number(rolwyddac::collect(encoded, route, source, memories, buffer, progress, status, grid))
    }

    fn sweep(&self, encoded: &[u8], source: &[u32], grid: &mut [u32]) -> u32 {
        number(rolwyddac::sweep(encoded, source, grid))
    }

    fn summary(&self, encoded: &[u8], route: Route, out: &mut [u32; SUMMARY_WORDS]) -> u32 {
        told(exported!(rolwyddac_summary(encoded => &[u8], route => Route) -> Told<SUMMARY_WORDS>), out)
    }

    fn message(&self, encoded: &[u8], route: Route, message: u32, out: &mut [u32; MESSAGE_WORDS]) -> u32 {
        told(exported!(rolwyddac_message(encoded => &[u8], route => Route, message => u32) -> Told<MESSAGE_WORDS>), out)
    }

    fn hops(&self, encoded: &[u8], message: u32, out: &mut [u32; HOPS_WORDS]) -> u32 {
        told(exported!(rolwyddac_hops(encoded => &[u8], message => u32) -> Told<HOPS_WORDS>), out)
    }

    fn read(&self, encoded: &[u8]) -> Result<Numbers, u32> {
        let tables = rolwyddac::read(encoded).map_err(Refusal::number)?;
        let [dimensions, distances, bounds] = [tables.dimensions, tables.distances, tables.bounds].map(|n| n as usize);
        let distance = |d: usize| ([0, 1, 2, 3].map(|k| tables.components[4 * d + k]), tables.weights[d]);
        let bound = |b: usize| Bound {
            side: tables.sides[b],
            dimension: tables.bounded[b],
            earlier: tables.earlier[b],
            slope: tables.slopes[b],
            offset: tables.offsets[b],
        };
        Ok(Numbers {
            dimensions: (0..dimensions).map(|d| [tables.lengths[d], tables.tiling[d], tables.counts[d]]).collect(),
            bounds: (0..bounds).map(bound).collect(),
            distances: (0..distances).map(distance).collect(),
            shift: tables.shift,
            boundary: tables.boundary,
        })
    }

    fn write(&self, numbers: &Numbers, space: &mut [u8]) -> u32 {
        let field = |at: usize| numbers.dimensions.iter().map(|dimension| dimension[at]).collect::<Vec<u16>>();
        let [lengths, tiling, counts] = [0, 1, 2].map(field);
        let components: Vec<u16> = numbers.distances.iter().flat_map(|distance| distance.0).collect();
        let weights: Vec<u16> = numbers.distances.iter().map(|distance| distance.1).collect();
        let of_bounds = |field: fn(&Bound) -> u8| numbers.bounds.iter().map(field).collect::<Vec<u8>>();
        let [sides, dimensions, earlier] =
            [of_bounds(|bound| bound.side), of_bounds(|bound| bound.dimension), of_bounds(|bound| bound.earlier)];
        let slopes: Vec<i8> = numbers.bounds.iter().map(|bound| bound.slope).collect();
        let offsets: Vec<i16> = numbers.bounds.iter().map(|bound| bound.offset).collect();
        number(rolwyddac::write(
            &lengths,
            &tiling,
            &counts,
            &components,
            &weights,
            &sides,
            &dimensions,
            &earlier,
            &slopes,
            &offsets,
            numbers.shift,
            numbers.boundary,
            space,
        ))
    }

    fn fresh_both(&self, encoded: &[u8], route: Route, rig: &mut Rig) -> u32 {
        let [first, second] = &mut rig.offices;
        exported!(rolwyddac_fresh_both(
            encoded => &[u8], route => Route,
            first.source => &[u32], first.memories => &mut [u32], first.buffer => &mut [u32],
            first.progress => &mut [Progress], first.status => &mut [u8],
            second.source => &[u32], second.memories => &mut [u32], second.buffer => &mut [u32],
            second.progress => &mut [Progress], second.status => &mut [u8],
            rig.engaged => &mut [u32]
        ))
    }

    fn tenant_turn(
        &self, encoded: &[u8], route: Route, areas: &mut Areas, engaged: &mut [u32], other: &[Progress], office: u32,
        processor: u32,
    ) -> u32 {
        exported!(rolwyddac_tenant_turn(
            encoded => &[u8], route => Route, areas.source => &[u32], areas.memories => &mut [u32],
            areas.buffer => &mut [u32], areas.progress => &mut [Progress], areas.status => &mut [u8],
            engaged => &mut [u32], other => &[Progress], office => u32, processor => u32
        ))
    }

    fn tenant_deliver(
        &self, encoded: &[u8], route: Route, areas: &mut Areas, engaged: &[u32], other: &[Progress], office: u32,
        message: u32,
    ) -> u32 {
        exported!(rolwyddac_tenant_deliver(
            encoded => &[u8], route => Route, areas.source => &[u32], areas.memories => &[u32],
            areas.buffer => &[u32], areas.progress => &[Progress], areas.status => &mut [u8],
            engaged => &[u32], other => &[Progress], office => u32, message => u32
        ))
    }

    fn tenant_collect(
        &self, encoded: &[u8], route: Route, areas: &mut Areas, engaged: &[u32], other: &[Progress], office: u32,
        grid: &mut [u32],
    ) -> u32 {
        exported!(rolwyddac_tenant_collect(
            encoded => &[u8], route => Route, areas.source => &[u32], areas.memories => &[u32],
            areas.buffer => &[u32], areas.progress => &[Progress], areas.status => &[u8],
            engaged => &[u32], other => &[Progress], office => u32, grid => &mut [u32]
        ))
    }

    fn view_of(
        &self, encoded: &[u8], memories: [&[u32]; 2], office: u32, processor: u32, out: &mut [u32; VIEW_WORDS],
    ) -> u32 {
        let viewed = exported!(rolwyddac_view(
            encoded => &[u8], memories[0] => &[u32], memories[1] => &[u32], office => u32, processor => u32
        ) -> Told<VIEW_WORDS>);
        told(viewed, out)
    }

    fn soundings(&self, encoded: &[u8], file: &[u8], value: u32, source: &mut [u32]) -> u32 {
        exported!(rolwyddac_soundings(encoded => &[u8], file => &[u8], value => u32, source => &mut [u32]))
    }

    fn chart(
        &self, encoded: &[u8], grid: &[u32], corners: [i32; 2], cell_size: u32, space: &mut [u8],
        out: &mut [u32; CHART_WORDS],
    ) -> u32 {
        let text = exported!(rolwyddac_chart(
            encoded => &[u8], grid => &[u32], corners[0] => i32, corners[1] => i32, cell_size => u32,
            space => &mut [u8]
        ) -> Told<CHART_WORDS>);
        told(text, out)
    }

    fn chart_length(
        &self, encoded: &[u8], grid: &[u32], corners: [i32; 2], cell_size: u32, out: &mut [u32; CHART_WORDS],
    ) -> u32 {
        let text = exported!(rolwyddac_chart_length(
            encoded => &[u8], grid => &[u32], corners[0] => i32, corners[1] => i32, cell_size => u32
        ) -> Told<CHART_WORDS>);
        told(text, out)
    }

    fn turn_at(
        &self, encoded: &[u8], route: Route, areas: &mut Areas, hours: &[u32], minute: u32, processor: u32,
    ) -> u32 {
        let Areas { source, memories, buffer, progress, status } = areas;
        number(rolwyddac::turn_at(encoded, route, source, memories, buffer, progress, status, hours, minute, processor))
    }

    fn tenant_turn_at(
        &self, encoded: &[u8], route: Route, areas: &mut Areas, engaged: &mut [u32], other: &[Progress], hours: &[u32],
        minute: u32, office: u32, processor: u32,
    ) -> u32 {
        let Areas { source, memories, buffer, progress, status } = areas;
        number(rolwyddac::tenant_turn_at(
            encoded, route, source, memories, buffer, progress, status, engaged, other, hours, minute, office,
            processor,
        ))
    }

    fn opens(&self, encoded: &[u8], hours: &[u32], minute: u32, processor: u32, out: &mut [u32; OPENS_WORDS]) -> u32 {
        let opening = exported!(rolwyddac_opens(
            encoded => &[u8], hours => &[u32], minute => u32, processor => u32
        ) -> Told<OPENS_WORDS>);
        told(opening, out)
    }

    fn rounds(&self, encoded: &[u8], areas: &mut Areas, out: &mut [u32; ROUNDS_WORDS]) -> u32 {
        let Areas { source, memories, buffer, progress, status } = areas;
        let driven = exported!(rolwyddac_rounds(
            encoded => &[u8], source => &[u32], memories => &mut [u32], buffer => &mut [u32],
            progress => &mut [Progress], status => &mut [u8]
        ) -> Told<ROUNDS_WORDS>);
        told(driven, out)
    }

    fn rounds_of(&self, encoded: &[u8], rounds: &mut [u32]) -> u32 {
        number(rolwyddac::rounds_of_words(encoded, rounds))
    }

    fn part_sizes(&self, encoded: &[u8], route: Route, processor: u32, out: &mut [u32; PART_SIZES_WORDS]) -> u32 {
        let lengths = exported!(rolwyddac_part_sizes(
            encoded => &[u8], route => Route, processor => u32
        ) -> Told<PART_SIZES_WORDS>);
        told(lengths, out)
    }

    fn part_messages(&self, encoded: &[u8], route: Route, processor: u32, out: &mut [u32]) -> u32 {
        number(rolwyddac::part_messages_words(encoded, route, processor, out))
    }

    fn part_fresh(&self, encoded: &[u8], route: Route, part: &mut Part, processor: u32) -> u32 {
        let Part { memory, mail, progress, marks, .. } = part;
        number(rolwyddac::part_fresh(encoded, route, memory, mail, progress, marks, processor))
    }

    fn part_turn(&self, encoded: &[u8], route: Route, part: &mut Part, processor: u32) -> u32 {
        let Part { source, memory, mail, progress, marks } = part;
        number(rolwyddac::part_turn(encoded, route, source, memory, mail, progress, marks, processor))
    }

    fn part_post(&self, encoded: &[u8], route: Route, part: &mut Part, processor: u32, message: u32) -> u32 {
        let Part { memory, mail, progress, marks, .. } = part;
        number(rolwyddac::part_post(encoded, route, memory, mail, progress, marks, processor, message))
    }

    fn part_arrive(
        &self, encoded: &[u8], route: Route, part: &mut Part, processor: u32, message: u32, words: &[u32],
    ) -> u32 {
        let Part { memory, mail, progress, marks, .. } = part;
        number(rolwyddac::part_arrive(encoded, route, memory, mail, progress, marks, processor, message, words))
    }

    fn part_collect(&self, encoded: &[u8], route: Route, part: &mut Part, processor: u32, grid: &mut [u32]) -> u32 {
        number(rolwyddac::part_collect(encoded, route, &part.memory, &part.progress, processor, grid))
    }
}

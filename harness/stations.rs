//! The stations of a tally: every station and some that there are not, counts at and near their
//! largest value in one station and not in others, and one tally through many calls.

use crate::compare::Checker;
use crate::entry::{Case, Entry, TALLY, TALLY_BYTES};
use crate::generate::{random_input, Room};
use crate::groups::check_answer;
use crate::model::{Tally, STATIONS};
use crate::recipe_generate::{accepted_recipe, lend_recipe, random_count, tally_bytes};
use crate::recipe_generate::{no_station, random_station};
use crate::recipe_groups::{laid_out, shape_with_rows};
use crate::rng::Rng;

pub fn set_tally(case: &mut Case, tally: Tally) {
    case.outputs[TALLY][..TALLY_BYTES].copy_from_slice(&tally_bytes(tally));
}

/// A tally with these counts for one station, and others at their largest value or at random.
pub fn tally_with(station: u32, counts: [u64; 2], rng: &mut Rng) -> Tally {
    let all_at_largest = rng.chance(1, 4);
    let mut tally: Tally =
        std::array::from_fn(|_| if all_at_largest { u64::MAX } else { random_count(rng) });
    let station = station as usize;
    if station < STATIONS {
        (tally[station], tally[STATIONS + station]) = (counts[0], counts[1]);
    }
    tally
}

/// Stations that there are not: past the last one, and such as a part of whose bits names one.
const NONE: [u32; 12] =
    [16, 17, 31, 32, 255, 256, 259, 65536, 65551, 2147483648, 4294967280, 4294967295];

/// Every station, finished and refused, from counts at and near their ends; and stations that there
/// are not, whether the recipe is malformed or not.
pub fn every_station(checker: &mut Checker, entry: Entry, rng: &mut Rng, _calls: u64) {
    for station in (0..STATIONS as u32).chain(NONE) {
        for count in [0, 1, 4294967295, u64::MAX - 1, u64::MAX] {
            for (number, counts) in [0, 9, 10].into_iter().flat_map(|number| {
                [[count, 0], [0, count], [count, count], [u64::MAX, count]]
                    .map(|counts| (number, counts))
            }) {
                let mut case = call_of(entry, station, number, rng);
                set_tally(&mut case, tally_with(station, counts, rng));
                check_answer(checker, &case, if station < STATIONS as u32 { number } else { 15 });
            }
        }
    }
}

/// A recipe for this station that is accepted, or refused with 9 or with 10.
fn call_of(entry: Entry, station: u32, number: u32, rng: &mut Rng) -> Case {
    let shown = accepted_recipe(entry.width, shape_with_rows(rng), rng.below(4), rng);
    let mut input = laid_out(&shown, rng);
    input.entry = input.entry.with_station(station);
    if number == 10 {
        input.numbers.push(0);
    }
    let room = if number == 9 { Room::Short(8, 1) } else { Room::Longer(1) };
    lend_recipe(&input, room, rng)
}

/// One tally through many calls of all stations and of none: the counts are those of the calls made,
/// and their sums over stations grow by them, split by outcome.
pub fn chains(checker: &mut Checker, entry: Entry, rng: &mut Rng, calls: u64) {
    while checker.calls < calls.max(600) {
        let from_0 = rng.chance(1, 2);
        let first: Tally = std::array::from_fn(|_| if from_0 { 0 } else { rng.next() >> 1 });
        check_chain(checker, entry, first, rng);
    }
}

fn check_chain(checker: &mut Checker, entry: Entry, first: Tally, rng: &mut Rng) {
    let sum = |counts: &[u64]| counts.iter().map(|count| u128::from(*count)).sum::<u128>();
    let sums = |tally: Tally| [sum(&tally[..STATIONS]), sum(&tally[STATIONS..])];
    let (mut tally, mut wanted) = (first, first);
    let mut made = [0, 0];
    for _ in 0..150 {
        let mut input = random_input(entry, shape_with_rows(rng), rng);
        let none = rng.chance(1, 4);
        let station = if none { no_station(rng) } else { random_station(rng) };
        input.entry = input.entry.with_station(station);
        let mut case = lend_recipe(&input, Room::Any, rng);
        set_tally(&mut case, tally);
        let observed = checker.check(&case);
        let refused = usize::from(observed.number != 0);
        if !none {
            wanted[refused * STATIONS + station as usize] += 1;
            made[refused] += 1;
        }
        let is_15 = observed.number == 15;
        checker.require(is_15 == none, &case, "a station misjudged");
        tally = observed.tally.unwrap_or(tally);
        checker.require(tally == wanted, &case, "a station's counts are not those of its calls");
        let [finished, refused] = sums(first);
        let grown = sums(tally) == [finished + made[0], refused + made[1]];
        checker.require(grown, &case, "the sums did not grow by the calls made");
    }
}

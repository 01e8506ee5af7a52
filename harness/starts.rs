//! Bitmaps from the middle of a byte: every bitmap from every starting bit, with exactly enough
//! bytes, one bit or more short, with other bits before the start and behind the end, beside the
//! same rows from other bits, and from bits over 7.

use crate::compare::Checker;
use crate::entry::{Entry, Input};
use crate::generate::{input_of, lend, random_layout, random_shown, small_shape};
use crate::generate::{Layout, Room, RowShape};
use crate::groups::check_answer;
use crate::model::{Bitmap, Shown};
use crate::recipe_generate::{accepted_recipe, over_rows, random_window, RecipeCall};
use crate::rng::Rng;
use crate::windows::Window;

/// Starting bits that there are not: the next ones, and such as are 0 to 7 in a part of their bits.
pub const OVER: [usize; 12] =
    [8, 9, 15, 16, 31, 255, 256, 259, 65536, 65543, 2147483648, 4294967295];

/// What lies behind a bitmap that is just long enough: the bits from its start to its end fill their
/// bytes, or go one bit, or some bits, into the last.
pub const ENDS: [usize; 3] = [0, 1, 4];

pub fn every_start(checker: &mut Checker, entry: Entry, rng: &mut Rng, _calls: u64) {
    for at in 0..entry.taken_bitmaps().len() {
        for start in 0..8 {
            for end in ENDS {
                check_start(checker, entry, at, start, end, rng);
            }
            check_absent(checker, entry, at, start, rng);
        }
        for start in OVER {
            check_over(checker, entry, at, start, rng);
        }
    }
}

/// What a call shows that no row or step refuses.
enum Shows {
    Operation(Entry, Shown),
    Recipe(RecipeCall),
    RecipeRows(RecipeCall, Window),
}

impl Shows {
    fn random(entry: Entry, rng: &mut Rng) -> Shows {
        let shape = RowShape { count: 1 + rng.below(20), longest: 3, ..small_shape(rng) };
        if entry.has_steps() {
            let shown = accepted_recipe(entry.width, shape, rng.below(4), rng);
            let call = RecipeCall::new(&shown, rng);
            match entry.is_recipe() {
                true => Shows::Recipe(call),
                false => Shows::RecipeRows(call, random_window(shape.count, rng)),
            }
        } else {
            Shows::Operation(entry, random_shown(entry, shape, rng))
        }
    }

    /// Its columns, with one bitmap from this bit and the others from random ones.
    fn laid_out(&self, at: usize, start: usize, absent_bitmaps: bool, rng: &mut Rng) -> Input {
        let (entry, lists) = match self {
            Shows::Operation(entry, _) => (*entry, entry.lists()),
            Shows::Recipe(call) => (Entry::recipes(call.width), 2),
            Shows::RecipeRows(..) => (Entry::RECIPE_ROWS, 2),
        };
        let layout =
            |rng: &mut Rng| Layout { absent_bitmaps, more_bitmap_bytes: 0, ..random_layout(rng) };
        let mut layouts: Vec<Layout> =
            (0..lists + entry.arguments()).map(|_| layout(rng)).collect();
        match at {
            _ if at >= 2 * lists => layouts[at - lists].elements_start = start,
            _ if at % 2 == 0 => layouts[at / 2].rows_start = start,
            _ => layouts[at / 2].elements_start = start,
        }
        match self {
            Shows::Operation(entry, shown) => input_of(*entry, shown, &layouts, rng),
            Shows::Recipe(call) => call.laid_out(&layouts, rng),
            Shows::RecipeRows(call, window) => over_rows(&call.laid_out(&layouts, rng), *window),
        }
    }
}

/// Flips the bits of a bitmap that are for no position.
pub fn flip_unseen(bitmap: &mut Bitmap, positions: usize) {
    let start = bitmap.start;
    for bit in (0..8 * bitmap.bytes.len()).filter(|bit| !(start..start + positions).contains(bit)) {
        bitmap.bytes[bit / 8] ^= 1 << (bit % 8);
    }
}

/// A call whose bitmap ends so far into its last byte, and which has more than one byte.
fn ending_at(entry: Entry, at: usize, start: usize, end: usize, rng: &mut Rng) -> (Shows, Input) {
    loop {
        let shows = Shows::random(entry, rng);
        let input = shows.laid_out(at, start, false, rng);
        let case = lend(&input, Room::Exact, rng);
        let (_, bytes, _, positions) = case.taken_bitmaps()[at];
        if bytes.len() > 1 && (start + positions) % 8 == end {
            return (shows, input);
        }
    }
}

/// The bitmap from this bit with exactly enough bytes, the same with other bits that are not seen,
/// and the same rows from bit 0 and from another; then without its last byte, which gives 2.
fn check_start(
    checker: &mut Checker,
    entry: Entry,
    at: usize,
    start: usize,
    end: usize,
    rng: &mut Rng,
) {
    let (shows, input) = ending_at(entry, at, start, end, rng);
    let case = lend(&input, Room::Longer(1), rng);
    let positions = case.taken_bitmaps()[at].3;
    let mut flipped = input.clone();
    flip_unseen(flipped.bitmaps_mut()[at], positions);
    let others = [0, rng.below(8)].map(|start| shows.laid_out(at, start, false, rng));
    let mut calls = vec![(case.clone(), checker.check(&case))];
    for other in [&flipped].into_iter().chain(&others) {
        let mut case = case.clone();
        case.lend(other);
        let observed = checker.check(&case);
        calls.push((case, observed));
    }
    checker.require(case.expected().number == 0, &case, "just long enough, and yet refused");
    checker.agree(&calls);
    let mut short = input;
    short.bitmaps_mut()[at].bytes.pop();
    check_answer(checker, &lend(&short, Room::Longer(1), rng), 2);
}

/// No bitmap: from whatever bit, all is valid.
fn check_absent(checker: &mut Checker, entry: Entry, at: usize, start: usize, rng: &mut Rng) {
    for _ in 0..2 {
        let shows = Shows::random(entry, rng);
        let mut input = shows.laid_out(at, start, true, rng);
        input.bitmaps_mut()[at].bytes.clear();
        let mut from_0 = input.clone();
        from_0.bitmaps_mut()[at].start = 0;
        let case = lend(&input, Room::Longer(1), rng);
        let mut other = case.clone();
        other.lend(&from_0);
        let calls = [case, other].map(|case| (case.clone(), checker.check(&case)));
        checker.agree(&calls);
    }
}

/// A bit over 7 gives 13, whether there is a bitmap or not.
fn check_over(checker: &mut Checker, entry: Entry, at: usize, start: usize, rng: &mut Rng) {
    for absent in [false, true, true] {
        let mut input = Shows::random(entry, rng).laid_out(at, 0, false, rng);
        let bitmap = &mut input.bitmaps_mut()[at];
        bitmap.start = start;
        if absent {
            bitmap.bytes.clear();
        }
        check_answer(checker, &lend(&input, Room::Any, rng), 13);
    }
}

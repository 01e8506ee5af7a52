//! What the calls of recipes covered, seen from the bytes of a case and from the model, and what a
//! whole run must reach.

use crate::coverage::{argument_layouts, list_layouts, row_count, slices_at_size};
use crate::coverage::{shared_3, shared_9, ARGUMENT_LAYOUTS, LIST_LAYOUTS, ROW_COUNTS, SHARED};
use crate::entry::{Case, Entry, Expected, Input, RECIPE_RESULT, TALLY, TALLY_BYTES, TRAYS};
use crate::generate::{Column, Harm};
use crate::model::{self, Malformed, Place, RecipeRefusal, RecipeShown, CODES, STATIONS};
use crate::recipe_generate::refusals_of_steps;

/// A kind and a subject.
type Met = (&'static str, String);

const PLACES: [Place; 3] = [Place::TrayOne, Place::TrayTwo, Place::Output];

impl Place {
    fn name(self) -> &'static str {
        match self {
            Place::TrayOne => "tray one",
            Place::TrayTwo => "tray two",
            Place::Output => "output",
        }
    }
}

const WAYS: [Malformed; 6] = [
    Malformed::Length,
    Malformed::Steps,
    Malformed::Code,
    Malformed::Columns,
    Malformed::AbsentColumn,
    Malformed::UnusedNumber,
];

impl Malformed {
    fn name(self) -> &'static str {
        match self {
            Malformed::Length => "length",
            Malformed::Steps => "steps",
            Malformed::Code => "code",
            Malformed::Columns => "columns",
            Malformed::AbsentColumn => "absent column",
            Malformed::UnusedNumber => "unused number",
        }
    }
}

/// What a call met.
pub fn met(case: &Case, expected: &Expected) -> Vec<Met> {
    let number = expected.number;
    let mut met = Vec::new();
    let mut add = |kind: &'static str, subject: String| met.push((kind, subject));
    if case.outputs[TRAYS].iter().flatten().any(|byte| *byte != 0) {
        add("trays dirty before", number.to_string());
    }
    if number >= 100 {
        return met;
    }
    slices_at_size(case).into_iter().for_each(|name| add("at size", name.to_string()));
    add("station", station_met(case.entry.recipe().0, number));
    if number == 15 {
        return met;
    }
    tally_met(case, number == 0).into_iter().for_each(|name| add("tally", name.to_string()));
    let input = case.decode();
    match number {
        0 => met.extend(accepted_met(case, &input)),
        4..=9 => met.extend(refused_met(case, &input)),
        10 => {
            met.extend(malformed_met(&input));
            met.extend(many_numbers_met(&input));
        }
        _ => (),
    }
    if matches!(number, 0 | 9) {
        met.extend(lent_met(case, &shown(&input)));
    }
    met
}

/// Where the refusal comes from that calls share which show the same.
pub fn shared_met(case: &Case, input: &Input, number: u32) -> Vec<String> {
    let met = match number {
        4..=9 => refused_met(case, input),
        10 => malformed_met(input),
        _ => Vec::new(),
    };
    let shared = |(kind, subject): Met| match kind {
        "refused" => Some(subject),
        "one slot short" => Some(shared_9(&subject)),
        "malformed" => Some(shared_10(&subject)),
        _ => None,
    };
    met.into_iter().filter_map(shared).collect()
}

fn shared_10(way: &str) -> String {
    format!("10, {way}")
}

// Tallies.

const TALLIES: [&str; 10] = [
    "finished at its largest, accepted",
    "finished one below its largest, accepted",
    "finished 0, accepted",
    "refused at its largest, refused",
    "refused one below its largest, refused",
    "refused 0, refused",
    "both at their largest",
    "another station's finished at their largest, accepted",
    "another station's refused at their largest, refused",
    "longer than its counts",
];

fn tally_met(case: &Case, accepted: bool) -> Vec<&'static str> {
    let (tally, station) = (case.tally(), case.entry.recipe().0 as usize);
    let (finished, refused) = (tally[station], tally[STATIONS + station]);
    let largest = u64::MAX;
    let at_largest = |counts: &[u64]| {
        counts.iter().enumerate().any(|(other, count)| other != station && *count == largest)
    };
    let holds = [
        accepted && finished == largest,
        accepted && finished == largest - 1,
        accepted && finished == 0,
        !accepted && refused == largest,
        !accepted && refused == largest - 1,
        !accepted && refused == 0,
        finished == largest && refused == largest,
        accepted && finished < largest && at_largest(&tally[..STATIONS]),
        !accepted && refused < largest && at_largest(&tally[STATIONS..]),
        case.outputs[TALLY].len() > TALLY_BYTES,
    ];
    TALLIES.into_iter().zip(holds).filter(|(_, holds)| *holds).map(|(name, _)| name).collect()
}

// Stations.

/// Stations that there are not, which must be named.
const NO_STATIONS: [u32; 4] = [16, 17, 256, u32::MAX];

fn station_met(station: u32, number: u32) -> String {
    let outcome = match number {
        0 => "finished",
        15 if !NO_STATIONS.contains(&station) => return "another over 15: 15".to_string(),
        15 => "15",
        _ => "refused",
    };
    format!("{station}: {outcome}")
}

fn demanded_stations() -> Vec<Met> {
    let mut all: Vec<String> = NO_STATIONS.iter().map(|none| station_met(*none, 15)).collect();
    for station in 0..STATIONS as u32 {
        all.extend([0, 10].map(|number| station_met(station, number)));
    }
    all.into_iter().map(|subject| ("station", subject)).collect()
}

// Malformed recipes.

/// A recipe that is malformed in one way alone; and the refusal that its columns would give.
fn malformed_met(input: &Input) -> Vec<Met> {
    let recipe = input.recipe().expect("the call of a recipe");
    let mut met = Vec::new();
    if let [way] = model::malformed(recipe.numbers, recipe.columns)[..] {
        let beside = match model::recipe_column_refusal(&recipe) {
            Some(number) => format!("beside {number}"),
            None => "alone".to_string(),
        };
        met.push(("malformed", format!("{} {beside}", way.name())));
    }
    met
}

/// More numbers than a recipe has, all of which are malformed.
const MANY_NUMBERS: [(usize, &str); 3] =
    [(128, "over 128"), (1024, "over 1024"), (4096, "over 4096")];

fn many_numbers_met(input: &Input) -> impl Iterator<Item = Met> {
    let numbers = input.numbers.len();
    let over = MANY_NUMBERS.into_iter().filter(move |(most, _)| numbers > *most);
    over.map(|(_, name)| ("numbers", name.to_string()))
}

// Refused steps.

/// The step that refuses and, for 9, the place and the one slice that is one slot short.
fn refused_met(case: &Case, input: &Input) -> Vec<Met> {
    let Err(RecipeRefusal { number, step, place }) = case.recipe_outcome() else {
        return Vec::new();
    };
    let steps = input.numbers.len() / 4;
    let at = match step {
        0 => "without steps",
        1 => "at step 1",
        _ if step == steps => "at the last step",
        _ if step % 2 == 0 => "at a later even step",
        _ => "at a later odd step",
    };
    let mut met = vec![("refused", format!("{number} {at}"))];
    let Some(place) = place else {
        return met;
    };
    met.push(("9 for", place.name().to_string()));
    let slots = slots_of_step(&shown(input), step);
    let first = 4 * place as usize;
    let kinds = case.entry.outputs()[first..].iter().zip(&case.outputs[first..]);
    let short: Vec<(&str, u64)> = kinds
        .zip(slots)
        .map(|((kind, bytes), needed)| (kind.name, needed, (bytes.len() / kind.width) as u64))
        .filter(|(_, needed, lent)| lent < needed)
        .map(|(name, needed, lent)| (name, needed - lent))
        .collect();
    if let [(name, 1)] = short[..] {
        met.push(("one slot short", name.to_string()));
    }
    if let Err(later) = model::carry(&shown(input), |_, slots| slots[2] < 100_000) {
        met.push(("order", format!("9 before {} of a later step", later.number)));
    }
    met
}

fn shown(input: &Input) -> RecipeShown {
    model::recipe_shown(&input.recipe().expect("the call of a recipe"))
}

/// The slots that the result of a step takes; of step 0, those of the copy.
fn slots_of_step(shown: &RecipeShown, step: usize) -> Vec<u64> {
    let mut slots = Vec::new();
    let mut at = usize::from(!shown.steps.is_empty());
    let _ = model::carry(shown, |_, needed| {
        slots = needed.to_vec();
        at += 1;
        at <= step
    });
    slots
}

// Accepted recipes.

const STEPS: [(usize, &str); 7] =
    [(0, "0"), (1, "1"), (2, "2"), (3, "3"), (4, "4"), (31, "31"), (32, "32")];

const COLUMN_USES: [&str; 5] = [
    "no columns",
    "eight columns",
    "a column twice in a step",
    "a column in two steps",
    "a column that no step uses",
];

fn accepted_met(case: &Case, input: &Input) -> Vec<Met> {
    let shown = shown(input);
    let mut met = steps_met(&shown);
    let uses = column_uses(&shown);
    met.extend(COLUMN_USES.into_iter().zip(uses).filter(|(_, holds)| *holds).map(column_use));
    met.extend(row_count(input).map(|name| ("rows", name.to_string())));
    met.extend(room_met(case, &shown));
    for (list, name) in input.lists.iter().zip(["list", "second list"]) {
        met.extend(list_layouts(list).into_iter().map(|layout| layout_met(name, layout)));
    }
    let arguments = argument_layouts(&input.arguments[0]);
    met.extend(arguments.into_iter().map(|layout| layout_met("arguments", layout)));
    met
}

fn column_use((name, _): (&str, bool)) -> Met {
    ("columns", name.to_string())
}

fn layout_met(column: &str, layout: &str) -> Met {
    ("layout", format!("{column}: {layout}"))
}

/// How many steps there are, where each code stands, and which follow each other.
fn steps_met(shown: &RecipeShown) -> Vec<Met> {
    let steps = shown.steps.len();
    let mut met: Vec<Met> =
        STEPS.iter().filter(|(count, _)| *count == steps).map(|(_, name)| count(name)).collect();
    for (at, step) in shown.steps.iter().enumerate() {
        let place = match at {
            _ if steps == 1 => "alone",
            0 => "first",
            _ if at + 1 == steps => "last",
            _ if at % 2 == 0 => "into tray one",
            _ => "into tray two",
        };
        met.push(("code", format!("{} {place}", step[0])));
    }
    for pair in shown.steps.windows(2) {
        met.push(("codes", format!("{} then {}", pair[0][0], pair[1][0])));
    }
    met
}

fn count(name: &str) -> Met {
    ("steps", name.to_string())
}

fn column_uses(shown: &RecipeShown) -> [bool; 5] {
    let used = |step: &[u32; 4]| step[1..1 + CODES[step[0] as usize].roles().len()].to_vec();
    let uses: Vec<Vec<u32>> = shown.steps.iter().map(used).collect();
    let steps_with = |column: u32| uses.iter().filter(|step| step.contains(&column)).count();
    let columns = || 0..shown.columns.len() as u32;
    let twice = |step: &Vec<u32>| (1..step.len()).any(|at| step[..at].contains(&step[at]));
    [
        shown.columns.is_empty(),
        shown.columns.len() == 8,
        uses.iter().any(twice),
        columns().any(|column| steps_with(column) > 1),
        columns().any(|column| steps_with(column) == 0),
    ]
}

/// How long the trays and the output are, compared with what the steps take, and what comes out.
fn room_met(case: &Case, shown: &RecipeShown) -> Vec<Met> {
    let mut needed = [[0; 4]; 3];
    let made = model::carry(shown, |place, slots| {
        let before = needed[place as usize].iter_mut().zip(slots);
        before.for_each(|(before, slots)| *before = (*before).max(*slots));
        true
    });
    let mut met = Vec::new();
    for (place, needed) in PLACES.into_iter().zip(needed) {
        let first = 4 * place as usize;
        let kinds = case.entry.outputs()[first..first + 4].iter().zip(&case.outputs[first..]);
        let lent: Vec<u64> = kinds.map(|(kind, bytes)| (bytes.len() / kind.width) as u64).collect();
        let written = needed[0] > 0;
        let room = match () {
            _ if lent == needed && written => "exactly long enough",
            _ if lent.iter().zip(&needed).all(|(lent, needed)| lent > needed) && written => {
                "longer"
            }
            _ if !written && lent.iter().all(|slots| *slots == 0) => "empty and not written",
            _ if !written && lent.iter().all(|slots| *slots > 0) => "lent and not written",
            _ => continue,
        };
        met.push(("room", format!("{} {room}", place.name())));
    }
    let shows = made.is_ok_and(|rows| rows.iter().flatten().any(|row| !row.is_empty()));
    if shows && shown.steps.len() >= 20 {
        met.push(("result", "elements after 20 steps or more".to_string()));
    }
    if case.outputs[RECIPE_RESULT].iter().flatten().any(|byte| *byte != 0) {
        met.push(("result", "output dirty before".to_string()));
    }
    met
}

// Lengths of single slices.

/// The recipes whose slices are looked at one by one: none of their steps writes a place again.
const LENT_STEPS: [(usize, &str); 3] = [(0, "no steps"), (1, "one step"), (3, "three steps")];

const LENT: [&str; 5] = ["none", "two short", "one short", "one more", "two more"];

/// How long one slice of the trays or of the output is, where every other slice is just as long as
/// the steps take.
fn lent_met(case: &Case, shown: &RecipeShown) -> Vec<Met> {
    let mut all = LENT_STEPS.into_iter();
    let Some((_, steps)) = all.find(|(steps, _)| *steps == shown.steps.len()) else {
        return Vec::new();
    };
    let mut needed = [[0; 4]; 3];
    let carried = model::carry(shown, |place, slots| {
        needed[place as usize].copy_from_slice(slots);
        true
    });
    if carried.is_err() {
        return Vec::new();
    }
    let lent = case.lengths(0..TALLY).into_iter().map(|slots| slots as u64).zip(needed.concat());
    let slices = case.entry.outputs().iter().zip(lent);
    let others: Vec<_> = slices.filter(|(_, (lent, needed))| lent != needed).collect();
    let [(kind, (lent, needed))] = others[..] else {
        return Vec::new();
    };
    let holds =
        [lent == 0, lent + 2 == needed, lent + 1 == needed, lent == needed + 1, lent == needed + 2];
    let names = LENT.into_iter().zip(holds).filter(|(_, holds)| *holds);
    names.map(|(name, _)| lent_as(steps, kind.name, name)).collect()
}

fn lent_as(steps: &str, slice: &str, name: &str) -> Met {
    ("lent", format!("{steps}, {slice}: {name}"))
}

// What a run must reach.

/// The answers that a recipe can be given. Its unions cannot exceed 2147483647 elements here, but
/// the counts of its resizes can.
const ANSWERS: [u32; 15] = [0, 1, 2, 3, 4, 5, 6, 7, 8, 9, 10, 13, 15, 100, 101];

/// Those at this width: large lists have no byte entry, and no 4 or 6.
fn answers(entry: Entry) -> Vec<u32> {
    let is_given = |number: &u32| !entry.is_wide() || !matches!(number, 4 | 6 | 101);
    ANSWERS.into_iter().filter(is_given).collect()
}

/// The order in which they come where several conditions hold; 4 to 8 are those of one step.
fn demanded_orders(entry: Entry) -> Vec<String> {
    let rank = |number: u32| match number {
        100 | 101 => number - 100,
        15 => 2,
        10 => 3,
        13 => 4,
        1..=3 => 4 + number,
        9 => 9,
        _ => 8,
    };
    let mut orders = Vec::new();
    let answers = answers(entry);
    for first in &answers[1..] {
        for then in &answers[1..] {
            if rank(*first) < rank(*then) {
                orders.push(format!("{first} before {then}"));
            }
        }
    }
    let later = refusals_of_steps(entry.width).iter();
    orders.extend(later.map(|number| format!("9 before {number} of a later step")));
    orders.extend(crate::coverage::demanded_column_orders(entry));
    orders
}

fn demanded_steps() -> Vec<Met> {
    let mut all: Vec<Met> = STEPS.iter().map(|(_, name)| count(name)).collect();
    for code in 0..CODES.len() {
        for place in ["alone", "first", "last", "into tray one", "into tray two"] {
            all.push(("code", format!("{code} {place}")));
        }
        all.extend((0..CODES.len()).map(|then| ("codes", format!("{code} then {then}"))));
    }
    all
}

fn demanded_refusals(entry: Entry) -> Vec<Met> {
    let mut all = Vec::new();
    for number in refusals_of_steps(entry.width).iter().copied().chain([9]) {
        let places = ["at step 1", "at the last step", "at a later even step"];
        for at in places.into_iter().chain(["at a later odd step"]) {
            all.push(("refused", format!("{number} {at}")));
        }
    }
    all.push(("refused", "9 without steps".to_string()));
    all.extend(PLACES.map(|place| ("9 for", place.name().to_string())));
    for way in WAYS {
        for beside in ["alone", "beside 13", "beside 1", "beside 2", "beside 3"] {
            all.push(("malformed", format!("{} {beside}", way.name())));
        }
    }
    all
}

fn demanded_slices(entry: Entry) -> Vec<Met> {
    let mut all = Vec::new();
    let kinds = entry.inputs().into_iter().chain(entry.outputs().iter().copied());
    for kind in kinds.filter(|_| !entry.is_wide()) {
        all.extend((kind.width > 1).then(|| ("ragged", kind.name.to_string())));
        if kind.most.is_some() {
            all.extend(["over size", "at size"].map(|way| (way, kind.name.to_string())));
        }
    }
    if !entry.is_wide() {
        all.extend(["counts", "tally"].map(|name| ("ragged", name.to_string())));
    }
    let written = entry.outputs()[..TALLY].iter();
    all.extend(written.map(|kind| ("one slot short", kind.name.to_string())));
    all
}

fn demanded_room() -> Vec<Met> {
    let mut all = Vec::new();
    for place in PLACES {
        for room in ["exactly long enough", "longer"] {
            all.push(("room", format!("{} {room}", place.name())));
        }
        for room in ["empty and not written", "lent and not written"] {
            if place != Place::Output {
                all.push(("room", format!("{} {room}", place.name())));
            }
        }
    }
    let results = ["elements after 20 steps or more", "output dirty before"];
    all.extend(results.map(|name| ("result", name.to_string())));
    all
}

/// A tray that no step writes takes nothing, and is never short.
fn demanded_lent(entry: Entry) -> Vec<Met> {
    let mut all = Vec::new();
    for (count, steps) in LENT_STEPS {
        for (slice, kind) in entry.outputs()[..TALLY].iter().enumerate() {
            let is_written = count == 3 || RECIPE_RESULT.contains(&slice);
            let names = if is_written { &LENT[..] } else { &LENT[3..] };
            all.extend(names.iter().map(|name| lent_as(steps, kind.name, name)));
        }
    }
    all
}

/// The answers that pairs of layouts must share: all but 13, 1, 2 and the entry's own.
fn shared_answers(entry: Entry) -> Vec<u32> {
    answers(entry).into_iter().filter(|number| matches!(number, 0 | 3..=10 | 15)).collect()
}

fn demanded_shared(entry: Entry) -> Vec<Met> {
    let mut all: Vec<String> = shared_answers(entry).iter().map(u32::to_string).collect();
    all.extend([Column::List(1), Column::Argument(0)].map(|column| shared_3(column, entry)));
    all.extend(entry.outputs()[..TALLY].iter().map(|kind| shared_9(kind.name)));
    for (kind, subject) in demanded_refusals(entry) {
        match kind {
            "refused" => all.push(subject),
            "malformed" if subject.ends_with("alone") || subject.ends_with("beside 3") => {
                all.push(shared_10(&subject));
            }
            _ => (),
        }
    }
    all.into_iter().map(|subject| (SHARED, subject)).collect()
}

/// Everything that a whole run must reach for recipes.
pub fn demanded(entry: Entry) -> Vec<Met> {
    let mut all: Vec<Met> = Vec::new();
    for number in answers(entry) {
        all.push(("answer", number.to_string()));
        all.push(("trays dirty before", number.to_string()));
    }
    all.extend(TALLIES.map(|name| ("tally", name.to_string())));
    all.extend(demanded_stations());
    all.extend(COLUMN_USES.map(|name| ("columns", name.to_string())));
    all.extend(ROW_COUNTS.map(|(_, name)| ("rows", name.to_string())));
    for column in ["list", "second list"] {
        all.extend(LIST_LAYOUTS.map(|layout| layout_met(column, layout)));
    }
    all.extend(ARGUMENT_LAYOUTS.map(|layout| layout_met("arguments", layout)));
    all.extend(Harm::of(entry).iter().map(|harm| ("damage", harm.name(entry))));
    all.extend(demanded_orders(entry).into_iter().map(|order| ("order", order)));
    all.extend(demanded_steps());
    all.extend(demanded_refusals(entry));
    all.extend(demanded_slices(entry));
    all.extend(demanded_room());
    all.extend(demanded_lent(entry));
    all.extend(demanded_shared(entry));
    all.extend(crate::coverage::demanded_no_offsets(entry));
    all.extend(crate::coverage::demanded_null_slots());
    all.extend(crate::coverage::demanded_starts(entry, &shared_answers(entry)));
    all.extend(crate::coverage::demanded_typed(entry, &answers(entry)));
    if !entry.is_wide() {
        all.extend(MANY_NUMBERS.map(|(_, name)| ("numbers", name.to_string())));
    }
    all
}

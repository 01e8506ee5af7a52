//! The names of the deliberately wrong versions of the library, which mock.rs, mock_rows.rs,
//! mock_recipe.rs, mock_typed.rs, mock_lending.rs, mock_views.rs, mock_windows.rs, mock_grades.rs and
//! mock_hashed.rs ask for.

use crate::entry::{Content, Entry};
use crate::mock_grades::{COLUMN_DEFECTS as GRADE_DEFECTS, RECIPE_DEFECTS as GRADE_RECIPE_DEFECTS};
use crate::mock_hashed::{HASHED_DEFECTS, HASHED_DISTINCT_DEFECTS, HASHED_LISTS_DEFECTS};
use crate::mock_views::{EXPORT_DEFECTS, IMPORT_DEFECTS};
use crate::mock_windows::WINDOW_DEFECTS;
use crate::model::Width;
use std::sync::OnceLock;

/// The calls that must report a wrong version.
#[derive(Clone, Copy, PartialEq)]
enum By {
    /// All that are made, over bytes and typed.
    All,
    Bytes,
    Typed,
    /// Those of the groups for what typed calls alone meet.
    TypedGroups,
    /// Those of the groups for how much to lend.
    Lending,
    /// Those of the groups of large lists.
    Large,
}

impl By {
    fn name(self) -> &'static str {
        match self {
            By::All => "all",
            By::Bytes => "bytes",
            By::Typed => "typed",
            By::TypedGroups => "typed-groups",
            By::Lending => "lending",
            By::Large => "large",
        }
    }
}

/// Wrong versions that calls over bytes and typed calls must report by themselves; any group may.
const OF_EACH_ROUTE: [&[&str]; 3] = [COLUMN_DEFECTS, START_DEFECTS, RESULT_DEFECTS];

/// The wrong versions, each with the operation whose groups must report it; where none is named,
/// any group may.
const DEFECTS: &[(&str, &[&str])] = &[
    (ANY, ENTRY_DEFECTS),
    ("reverse", &["reverse-leaves-bits", "reverse-of-two-unchanged"]),
    (
        "distinct",
        &[
            "distinct-compares-hidden-numbers",
            "distinct-null-equals-0",
            "distinct-null-equals-smallest",
            "distinct-over-all-rows",
            "distinct-keeps-last",
            "distinct-drops-nulls",
            "distinct-neighbours-only",
        ],
    ),
    ("pop front", &["pops-swapped", "pop-keeps-single-element", "pop-of-empty-is-null"]),
    ("pop back", &["pops-swapped", "pop-keeps-single-element", "pop-of-empty-is-null"]),
    ("any-value", &["any-value-takes-first", "any-value-skips-0", "any-value-skips-smallest"]),
    (
        "element",
        &[
            "index-0-is-first",
            "index-minus-1-is-last-but-one",
            "index-below-minus-length-is-first",
            "index-wraps-to-32-bits",
            "index-smallest-refused",
            "index-largest-refused",
            "4-not-over-empty-row",
            "4-for-null-row",
            "4-for-null-argument",
            "4-only-in-first-row",
            "4-before-3",
            "9-before-row-refusals",
        ],
    ),
    ("union", RIGHT_DEFECTS),
    (
        "union",
        &[
            "union-concatenates",
            "union-right-first",
            "union-null-is-other-side",
            "union-null-row-is-empty",
            "union-left-repeats-kept",
            "union-right-repeats-kept",
            "union-drops-nulls",
            "union-null-equals-0",
            "union-null-equals-smallest",
            "union-compares-hidden-numbers",
        ],
    ),
    ("intersect", RIGHT_DEFECTS),
    (
        "intersect",
        &[
            "intersect-left-walked",
            "intersect-right-on-equal-lengths",
            "intersect-shorter-walked",
            "intersect-longer-by-distinct",
            "intersect-repeats-kept",
            "intersect-nulls-not-common",
            "intersect-null-equals-smallest",
            "intersect-null-row-is-empty",
            "intersect-null-right-keeps-left",
            "intersect-compares-hidden-numbers",
            "intersect-keeps-the-others",
        ],
    ),
    ("slice", ARGUMENT_DEFECTS),
    ("slice", BOUND_DEFECTS),
    ("slice", STRIDE_DEFECTS),
    ("slice", &["third-start-ignored"]),
    ("slice without stride", UNTAKEN_DEFECTS),
    ("slice without stride", BOUND_DEFECTS),
    ("slice without stride", &["absent-stride-follows-bounds", "absent-stride-read-from-third"]),
    ("resize", ARGUMENT_DEFECTS),
    ("resize", UNTAKEN_DEFECTS),
    ("resize", COUNT_DEFECTS),
    (
        "resize",
        &[
            "resize-fill-of-first-row",
            "resize-null-fill-is-0",
            "resize-null-fill-shows-number",
            "resize-null-fill-gives-null",
            "resize-fill-ignored",
        ],
    ),
    ("resize without fill", UNTAKEN_DEFECTS),
    ("resize without fill", COUNT_DEFECTS),
    ("resize without fill", &["absent-fill-is-0", "absent-fill-read-from-second"]),
    ("replace", ARGUMENT_DEFECTS),
    ("replace", LIMIT_DEFECTS),
    ("replace", &["third-start-ignored"]),
    (
        "replace",
        &[
            "replace-null-from-gives-null",
            "replace-null-from-matches-nothing",
            "replace-null-to-gives-null",
            "replace-null-to-is-0",
            "replace-null-to-unchanged",
        ],
    ),
    ("remove", UNTAKEN_DEFECTS),
    ("remove", LIMIT_DEFECTS),
    (
        "remove",
        &[
            "remove-null-removes-nulls",
            "remove-null-unchanged",
            "remove-null-of-empty-row-is-empty",
            "remove-null-with-limit-0-unchanged",
            "remove-leaves-nulls",
            "remove-drops-nulls",
        ],
    ),
    (
        "list-repeat",
        &[
            "repeat-null-list-over-values",
            "repeat-null-list-is-null-outer",
            "repeat-null-list-once",
            "repeat-null-list-is-empty",
            "repeat-null-count-is-empty",
            "repeat-0-is-null",
            "repeat-negative-is-once",
            "repeat-one-list",
            "repeat-one-more",
            "repeat-8-by-values-of-null-lists",
            "repeat-8-by-lists-missing",
            "repeat-8-by-values-missing",
            "repeat-null-lists-not-in-8",
            "repeat-8-one-early",
            "repeat-8-one-late",
            "repeat-sum-wraps-at-32-bits",
            "repeat-sum-wraps-at-64-bits",
            "repeat-outer-offsets-of-values",
            "repeat-inner-offsets-start-again",
            "repeat-inner-bits-not-written",
            "repeat-inner-spare-bits-set",
            "repeat-inner-nulls-not-counted",
            "repeat-counts-swapped",
            "repeat-outer-nulls-with-inner",
            "short-inner-offsets-accepted",
            "short-inner-bitmap-accepted",
            "short-element-bitmap-accepted",
            "short-row-bitmap-accepted",
            "short-values-accepted",
            "9-before-row-refusals",
            "tail-inner-offset-cleared",
        ],
    ),
    (RECIPE, RECIPE_STEP_DEFECTS),
    (RECIPE, MALFORMED_DEFECTS),
    (RECIPE, RECIPE_COLUMN_DEFECTS),
    (RECIPE, START_DEFECTS),
    (RECIPE, RECIPE_START_DEFECTS),
    (RECIPE, TRAY_DEFECTS),
    (RECIPE, TALLY_DEFECTS),
    (RECIPE, STATION_DEFECTS),
    (RECIPE, OPERATION_DEFECTS_IN_RECIPES),
];

/// Wrong versions of the typed entries, in the same way.
const TYPED_DEFECTS: &[(By, &str, &[&str])] = &[
    (By::Typed, ANY, TYPED_CODE_DEFECTS),
    (By::Typed, ANY, STRAY_DEFECTS),
    (By::Typed, "union", &["typed-list-codes-served-by-lists", "typed-code-11-served-by-lists"]),
    (By::Typed, "union", TYPED_RIGHT_DEFECTS),
    (By::Typed, "intersect", TYPED_RIGHT_DEFECTS),
    (By::Typed, "reverse", TYPED_UNTAKEN_DEFECTS),
    (By::Typed, "distinct", TYPED_UNTAKEN_DEFECTS),
    (By::Typed, "pop front", TYPED_UNTAKEN_DEFECTS),
    (By::Typed, "pop back", TYPED_UNTAKEN_DEFECTS),
    (By::Typed, "any-value", &["typed-four-counts-for-all"]),
    (By::Typed, "element", &["typed-four-counts-for-all", "typed-first-start-ignored"]),
    (By::Typed, "list-repeat", &["typed-four-counts-for-all", "typed-first-start-ignored"]),
    (By::Typed, "slice", TYPED_ARGUMENT_DEFECTS),
    (By::Typed, "slice", &["typed-third-start-ignored"]),
    (By::Typed, "slice without stride", TYPED_ARGUMENT_DEFECTS),
    (By::Typed, "resize", TYPED_ARGUMENT_DEFECTS),
    (By::Typed, "resize without fill", &["typed-first-start-ignored"]),
    (By::Typed, "replace", TYPED_ARGUMENT_DEFECTS),
    (By::Typed, "replace", &["typed-third-start-ignored"]),
    (By::Typed, "remove", TYPED_ARGUMENT_DEFECTS),
    (By::TypedGroups, "list-repeat", &["typed-9-for-over-16384-lists"]),
    (By::TypedGroups, "list-repeat", TYPED_RESULT_DEFECTS),
    (By::TypedGroups, "reverse", TYPED_RESULT_DEFECTS),
    (By::TypedGroups, "union", TYPED_RESULT_DEFECTS),
    (By::TypedGroups, "slice", TYPED_RESULT_DEFECTS),
    (By::TypedGroups, "resize", TYPED_RESULT_DEFECTS),
    (By::TypedGroups, "replace", TYPED_RESULT_DEFECTS),
    (By::Typed, RECIPE, TYPED_RIGHT_DEFECTS),
    (By::Typed, RECIPE, TYPED_RECIPE_DEFECTS),
    (By::TypedGroups, RECIPE, TYPED_SIZE_DEFECTS),
    (By::TypedGroups, RECIPE, &["typed-9-for-over-16384-elements"]),
    (By::TypedGroups, RECIPE, &["typed-columns-cut-to-32-bits", "typed-trays-cleared-to-16384"]),
    (By::TypedGroups, RECIPE, &["typed-101-over-32768-arguments", "typed-starts-cut-to-32-bits"]),
    (By::Lending, ANY, LENDING_DEFECTS),
    (By::Lending, "reverse", LENGTH_DEFECTS),
    (By::Lending, "union", LENGTH_DEFECTS),
    (By::Lending, "resize", LENGTH_DEFECTS),
    (By::Lending, "list-repeat", LENGTH_DEFECTS),
    (By::Lending, "list-repeat", &["lengths-one-inner-offset-too-few"]),
    (By::Lending, "reverse", &["lending-code-12-served", "lending-set-codes-served-by-list"]),
    (By::Lending, "union", &["lending-list-codes-served-by-lists"]),
    (By::Lending, "pop front", &["lending-pop-front-keeps-all"]),
    (By::Lending, "distinct", &["lengths-of-the-input"]),
    (By::Lending, "intersect", &["lengths-of-the-input"]),
    (By::Lending, "slice", &["lengths-of-the-input", "lending-row-refusals-not-given"]),
    (By::Lending, "element", &["lending-row-refusals-not-given", "lengths-bitmap-one-more"]),
    (By::Lending, RECIPE, LENDING_DEFECTS),
    (By::Lending, RECIPE, LIMITS_DEFECTS),
    (By::Large, "large element", &["large-4-given", "large-indexes-cut-to-32-bits"]),
    (By::Large, "large slice", LARGE_SLICE_DEFECTS),
    (By::Large, "large slice without stride", &["large-4-given", "large-bounds-cut-to-32-bits"]),
    (By::Large, "large resize", LARGE_RESIZE_DEFECTS),
    (By::Large, "large resize without fill", LARGE_RESIZE_DEFECTS),
    (By::Large, "large replace", &["large-limits-cut-to-32-bits"]),
    (By::Large, "large remove", &["large-limits-cut-to-32-bits"]),
    (By::Large, "large list-repeat", LARGE_REPEAT_DEFECTS),
    (By::Large, "large recipe", LARGE_RECIPE_DEFECTS),
    (By::Typed, "grade", GRADE_DEFECTS),
    (By::Typed, "grade recipe", GRADE_RECIPE_DEFECTS),
    (By::Typed, "import view", IMPORT_DEFECTS),
    (By::Typed, "export view", EXPORT_DEFECTS),
    (By::Typed, "recipe rows", WINDOW_DEFECTS),
    (By::Typed, "distinct hashed", HASHED_DEFECTS),
    (By::Typed, "distinct hashed", HASHED_DISTINCT_DEFECTS),
    (By::Typed, "union hashed", HASHED_DEFECTS),
    (By::Typed, "union hashed", HASHED_LISTS_DEFECTS),
    (By::Typed, "intersect hashed", HASHED_DEFECTS),
    (By::Typed, "intersect hashed", HASHED_LISTS_DEFECTS),
];

const LARGE_SLICE_DEFECTS: &[&str] = &[
    "large-4-given",
    "large-6-given",
    "large-bounds-cut-to-32-bits",
    "large-strides-cut-to-32-bits",
    "stride-0-before-bounds",
    "one-step-too-many",
];

const LARGE_RESIZE_DEFECTS: &[&str] = &[
    "large-limits-of-32-bits",
    "large-resize-to-the-largest-offset",
    "large-running-sum-not-tested",
    "large-running-sum-wraps",
    "large-lengths-cut-to-32-bits",
    "resize-8-one-early",
    "resize-8-one-late",
];

const LARGE_REPEAT_DEFECTS: &[&str] = &[
    "large-limits-of-32-bits",
    "large-lists-one-early",
    "large-lists-one-late",
    "large-values-one-late",
    "large-values-as-lists",
    "large-values-wrap-at-64-bits",
    "large-product-wraps-at-63-bits",
    "large-product-wraps-at-64-bits",
    "large-lengths-cut-to-32-bits",
    "repeat-8-by-values-of-null-lists",
];

const LARGE_RECIPE_DEFECTS: &[&str] = &[
    "large-4-given",
    "large-6-given",
    "large-limits-of-32-bits",
    "large-limits-stop-at-2147483647",
    "large-limits-stop-as-resize",
    "large-limits-stop-at-2-to-the-64",
    "large-tray-offsets-cleared-as-32-bits",
    "large-bounds-cut-to-32-bits",
    "large-limits-cut-to-32-bits",
    "recipe-does-step-one-and-copies",
    "recipe-15-after-10",
    "recipe-neighbour-counted",
    "limits-resize-adds",
    "limits-sum-wraps-at-64-bits",
];

/// Those that the groups of large lists must report in every operation, and in recipes.
const LARGE_EVERYWHERE: &[&str] =
    &["large-offsets-read-as-32-bits", "refusal-clears-outputs", "start-ignored", NULL_ROWS];

/// Those whose result has offsets.
const LARGE_RESULT_DEFECTS: &[&str] = &[
    "large-offsets-written-as-32-bits",
    "large-offsets-packed-as-32-bits",
    "large-room-counted-by-32-bits",
];

/// How much to lend: what is asked in whatever entry.
const LENDING_DEFECTS: &[&str] = &[
    "lending-one-place-fewer-accepted",
    "lending-exact-places-refused",
    "lending-100-after-refusals",
    "lending-13-not-given",
    "lending-3-not-given",
    "lending-9-given",
    "lengths-written-on-a-refusal",
    "lengths-written-on-100",
    "lengths-cleared-on-a-refusal",
    "lengths-written-past",
    "last-length-not-written",
];

/// The lengths of a list answer.
const LENGTH_DEFECTS: &[&str] = &[
    "lengths-null-row-values-counted",
    "lengths-one-offset-too-few",
    "lengths-no-offset-for-no-rows",
    "lengths-bitmap-rounded-down",
    "lengths-bitmap-one-more",
    "lengths-row-bitmap-rounded-down",
    "lengths-values-one-more",
];

/// The limits of a recipe.
const LIMITS_DEFECTS: &[&str] = &[
    "limits-null-row-values-counted",
    "limits-resize-adds",
    "limits-resize-takes-the-greater",
    "limits-resize-by-the-fill",
    "limits-by-the-carried-rows",
    "limits-resize-over-all-rows",
    "limits-resize-over-the-second-list",
    "limits-null-counts-summed",
    "limits-negative-counts-as-sizes",
    "limits-negative-counts-as-unsigned",
    "limits-sum-wraps-at-64-bits",
    "limits-sum-wraps-at-32-bits",
    "limits-union-keeps",
    "limits-union-adds-the-first",
    "limits-union-of-common-rows",
    "limits-intersect-by-the-second",
    "limits-pops-counted",
    "limits-by-levels",
    "limits-cap-left-out",
    "limits-cap-one-more",
    "limits-unwritten-trays-as-the-input",
    "limits-of-no-steps-0",
    "limits-last-step-in-a-tray",
    "limits-trays-exchanged",
    "limits-of-a-trays-last-step",
    "limits-last-step-for-the-trays",
    "limits-greatest-for-all",
    "limits-15-given",
    "limits-13-before-10",
    "limits-7-given",
    "limits-four-places-needed",
];

/// Prints each wrong version with the calls and the operation whose groups must report it.
pub fn print() {
    let line = |by: By, operation: &str, names: &[&str]| {
        names.iter().for_each(|name| println!("{name} {} {operation}", by.name()));
    };
    for names in OF_EACH_ROUTE {
        line(By::Bytes, ANY, names);
        line(By::Typed, ANY, names);
    }
    DEFECTS.iter().for_each(|(operation, names)| line(By::All, operation, names));
    TYPED_DEFECTS.iter().for_each(|(by, operation, names)| line(*by, operation, names));
    for entry in Entry::all(Width::Wide).chain([Entry::recipes(Width::Wide)]) {
        line(By::Large, entry.name(), LARGE_EVERYWHERE);
        if entry.outputs()[0].content == Content::Offsets {
            line(By::Large, entry.name(), LARGE_RESULT_DEFECTS);
        }
    }
    for entry in Entry::all(Width::Narrow).chain([Entry::recipes(Width::Narrow)]) {
        line(By::All, entry.name(), EVERYWHERE);
        if entry.outputs()[0].content == Content::Offsets {
            line(By::All, entry.name(), &[NO_SLOT]);
        }
        line(By::Typed, entry.name(), TYPED_EVERYWHERE);
        if !entry.is_recipe() {
            line(By::Typed, entry.name(), TYPED_OPERATION_DEFECTS);
            line(By::TypedGroups, entry.name(), TYPED_SIZE_DEFECTS);
            line(By::TypedGroups, entry.name(), TYPED_LARGE_DEFECTS);
        }
    }
}

/// No operation is named.
const ANY: &str = "";

const RECIPE: &str = "recipe";

/// Those that the groups of every operation must report, and those of recipes.
const EVERYWHERE: &[&str] = &[
    "first-offset-taken-as-0",
    "bits-highest-first",
    "empty-bitmap-all-null",
    "element-validity-ignored",
    "last-fall-missed",
    "last-beyond-by-one-accepted",
    "element-bitmap-to-last-offset",
    "longer-bitmap-refused",
    "spare-bits-kept",
    "bits-added-to-content",
    "tail-cleared",
    "null-count-with-spare-bits",
    "exact-room-refused",
    "short-row-bitmap-accepted",
    "refusal-writes-counts",
    "refusal-clears-outputs",
    "ragged-output-accepted",
    "at-size-refused",
    "no-offsets-refused",
    "no-offsets-bitmap-not-tested",
    "no-offsets-are-one-row",
    "null-slot-holds-0",
    "valid-smallest-becomes-null",
    "start-ignored",
    "start-ignored-in-coverage",
    "13-after-1",
    "13-not-beside-an-empty-bitmap",
    NULL_ROWS,
];

/// Wrong versions of every typed entry.
const TYPED_EVERYWHERE: &[&str] = &[
    "typed-one-count-fewer-accepted",
    "typed-exact-counts-refused",
    "typed-counts-not-written",
    "typed-last-count-not-written",
    "typed-count-written-past",
    "typed-counts-written-on-refusal",
    "typed-counts-written-on-100",
    "typed-row-start-ignored",
    "typed-element-start-ignored",
];

/// Those of every typed entry but that of recipes.
const TYPED_OPERATION_DEFECTS: &[&str] =
    &["typed-100-after-refusals", "typed-100-clears-outputs", "typed-starts-cut-to-32-bits"];

/// Sizes that the byte entries do not take.
const TYPED_SIZE_DEFECTS: &[&str] = &[
    "typed-101-over-4096-rows",
    "typed-101-over-16384-values",
    "typed-101-over-a-million-values",
    "typed-counts-cut-to-16-bits",
    "typed-bits-past-65536-bytes-set",
];

/// Large rows, shown and not.
const TYPED_LARGE_DEFECTS: &[&str] =
    &["typed-null-rows-over-16384-values-shown", "typed-rows-cut-at-65535"];

/// Large results.
const TYPED_RESULT_DEFECTS: &[&str] =
    &["typed-9-for-over-16384-elements", "typed-values-past-a-million-not-written"];

const TYPED_CODE_DEFECTS: &[&str] = &[
    "typed-unknown-code-gives-102",
    "typed-code-12-served",
    "typed-set-codes-served-by-list",
    "typed-code-11-not-served",
    "typed-code-8-not-served",
    "typed-code-cut-to-a-byte",
];

const STRAY_DEFECTS: &[&str] = &[
    "writes-behind-an-output",
    "writes-behind-the-counts",
    "writes-an-input",
    "state-between-calls",
];

const TYPED_RIGHT_DEFECTS: &[&str] = &[
    "typed-right-row-start-ignored",
    "typed-right-element-start-ignored",
    "typed-list-beside-itself-refused",
];

const TYPED_ARGUMENT_DEFECTS: &[&str] = &[
    "typed-first-start-ignored",
    "typed-second-start-ignored",
    "typed-starts-of-arguments-exchanged",
];

/// Argument columns beside an operation that takes none, which only typed calls have.
const TYPED_UNTAKEN_DEFECTS: &[&str] = &[
    "13-for-untaken-columns",
    "untaken-bitmap-tested",
    "untaken-rows-counted",
    "untaken-null-gives-null",
];

/// Trays, tallies and 100.
const TYPED_RECIPE_DEFECTS: &[&str] = &[
    "typed-first-start-ignored",
    "typed-tally-one-short-accepted",
    "typed-tally-of-exact-length-refused",
    "typed-15-before-100",
    "typed-10-before-100",
    "typed-100-leaves-trays",
    "typed-100-leaves-tray-two",
    "typed-trays-cleared-by-the-byte",
    "typed-short-tally-written",
    "typed-100-counted",
    "typed-refused-counts-not-kept",
    "typed-tally-written-past",
];

/// The validity of rows is not looked at.
pub const NULL_ROWS: &str = "null-rows-shown";

/// A result of no rows needs no slot where the list has no offsets; of a value answer, none ever.
const NO_SLOT: &str = "no-slot-where-no-offsets";

/// What a column shows, and refusals of columns.
const COLUMN_DEFECTS: &[&str] = &[
    "null-row-values-kept",
    "null-row-values-counted",
    "first-offset-taken-as-0",
    "bits-highest-first",
    "first-bitmap-byte-for-all",
    "empty-bitmap-all-null",
    "last-row-forgotten-at-4096",
    "element-validity-ignored",
    "negative-first-accepted",
    "last-fall-missed",
    "fall-at-null-row-missed",
    "last-beyond-by-one-accepted",
    "last-equal-to-values-refused",
    "row-bitmap-not-tested",
    "row-bitmap-for-one-more-row",
    "element-bitmap-to-last-offset",
    "argument-bitmap-not-tested",
    "longer-bitmap-refused",
    "fewer-arguments-only",
    "more-arguments-only",
    "2-before-1",
    "3-before-2",
    "4-before-3",
    "9-before-row-refusals",
    "9-before-2",
];

/// Starting bits.
const START_DEFECTS: &[&str] = &[
    "row-start-ignored",
    "element-start-ignored",
    "argument-start-ignored",
    "starts-of-a-list-exchanged",
    "start-turns-in-its-byte",
    "start-counted-from-the-highest",
    "start-rounds-coverage-up",
    "start-beside-no-bitmap-gives-nulls",
    "start-7-refused",
    "start-8-accepted",
    "start-cut-to-a-byte",
    "13-not-given",
    "13-of-rows-only",
    "13-of-arguments-not-given",
    "13-after-2",
    "13-after-3",
    "result-from-the-starting-bit",
];

/// Starting bits in recipes, and more numbers than a recipe has.
const RECIPE_START_DEFECTS: &[&str] = &[
    "right-starts-ignored",
    "13-of-right-not-given",
    "recipe-13-before-10",
    "recipe-13-before-15",
    "recipe-13-of-arguments-only-with-columns",
    "recipe-argument-start-of-first-column-only",
    "recipe-trays-read-from-the-starting-bit",
    "recipe-numbers-over-128-give-101",
    "recipe-numbers-over-1024-give-101",
    "recipe-many-numbers-not-in-tally",
    "recipe-many-numbers-leave-trays",
    "recipe-10-of-many-numbers-before-101",
];

/// The second list.
const RIGHT_DEFECTS: &[&str] = &[
    "right-starts-ignored",
    "13-of-right-not-given",
    "13-list-by-list",
    "right-no-offsets-refused",
    "right-no-offsets-bitmap-not-tested",
    "right-no-offsets-are-one-row",
    "right-no-offsets-suit-any-rows",
    "right-offsets-not-tested",
    "right-bitmaps-not-tested",
    "right-rows-not-counted",
    "right-rows-not-counted-from-offset-0",
    "right-more-rows-accepted",
    "right-fewer-rows-accepted",
    "2-of-left-before-1-of-right",
    "3-before-2",
    "right-null-rows-shown",
    "right-first-offset-taken-as-0",
    "right-element-validity-ignored",
    "right-numbers-under-nulls-shown",
];

/// More than one argument column.
const ARGUMENT_DEFECTS: &[&str] = &[
    "second-start-ignored",
    "start-of-the-first-argument-for-all",
    "13-of-second-argument-not-given",
    "13-of-arguments-after-2",
    "second-bitmap-not-tested",
    "second-rows-not-counted",
    "2-and-3-column-by-column",
    "3-before-2",
    "last-column-not-tested",
];

/// Columns that are lent and not taken.
const UNTAKEN_DEFECTS: &[&str] = &[
    "13-for-untaken-columns",
    "untaken-bitmap-tested",
    "untaken-rows-counted",
    "untaken-null-gives-null",
    "untaken-size-not-tested",
    "untaken-ragged-accepted",
];

const BOUND_DEFECTS: &[&str] = &[
    "to-minus-1-excluded",
    "to-excluded",
    "to-past-end-outside",
    "to-below-minus-length-is-first",
    "to-0-is-first",
    "to-0-is-last",
    "from-0-outside",
    "from-below-minus-length-outside",
    "from-past-end-is-last",
    "negative-from-one-late",
    "bounds-counted-from-0",
    "bounds-wrap-to-32-bits",
    "bound-smallest-refused",
    "bound-largest-refused",
    "to-beyond-is-past-the-end",
    "to-tested-only-with-from-inside",
    "4-over-empty-row",
    "4-for-null-row",
    "4-beside-a-null",
    "4-only-in-first-row",
    "4-only-where-inside",
    "null-from-is-first",
    "null-to-is-last",
    "null-argument-of-empty-row-is-empty",
    "null-argument-gives-empty",
    "slice-of-empty-is-null",
    "slice-bits-from-the-start",
    "9-before-row-refusals",
];

const STRIDE_DEFECTS: &[&str] = &[
    "stride-0-before-bounds",
    "stride-0-gives-empty",
    "stride-0-is-1",
    "stride-0-before-4",
    "5-over-empty-row",
    "5-beside-a-null",
    "equal-bounds-negative-stride-empty",
    "equal-bounds-positive-stride-empty",
    "equal-bounds-empty",
    "one-step-too-many",
    "one-step-too-many-unless-to-is-met",
    "falling-bounds-give-one-place",
    "counts-up-where-it-should-count-down",
    "smallest-stride-gives-none",
    "at-most-3999-places",
    "stride-size-before-direction",
    "stride-size-not-for-equal-bounds",
    "stride-size-before-bounds",
    "stride-wraps-to-32-bits",
    "stride-beyond-accepted",
    "stride-smallest-refused",
    "stride-largest-refused",
    "stride-direction-ignored",
    "step-past-largest-refused",
    "to-only-by-stride-1",
    "last-place-left-out",
    "stride-1-always",
    "null-stride-is-1",
    "lowest-number-decides",
    "last-bad-row-decides",
];

const COUNT_DEFECTS: &[&str] = &[
    "resize-null-lists-counted",
    "resize-null-counts-counted",
    "resize-negative-is-0",
    "resize-0-refused",
    "resize-8-before-7",
    "resize-8-at-the-row-past-2147483647",
    "resize-running-sum-wraps",
    "resize-running-sum-not-tested",
    "resize-running-sum-to-2-to-the-63",
    "resize-running-sum-largest-refused",
    "resize-8-one-early",
    "resize-8-one-late",
    "resize-sum-in-32-bits",
    "resize-8-missing",
    "resize-7-only-at-the-end",
    "resize-pads-front",
    "resize-never-cuts",
    "resize-never-fills",
    "resize-one-more",
    "resize-null-count-keeps-row",
    "resize-null-list-is-filled",
    "resize-fills-with-last",
    "resize-cuts-front",
    "9-before-row-refusals",
];

const LIMIT_DEFECTS: &[&str] = &[
    "one-limit-refused",
    "one-limit-for-first-row-only",
    "limits-not-counted",
    "one-limit-for-no-rows-refused",
    "two-limits-for-no-rows-accepted",
    "one-argument-for-all-rows",
    "matches-all",
    "matches-first-only",
    "matches-last",
    "matches-one-more",
    "matches-hidden-numbers",
    "matches-null-as-0",
    "matches-null-as-smallest",
    "limit-0-is-all",
    "limit-negative-is-all",
    "limit-negative-gives-null",
    "limit-null-is-all",
    "limit-null-unchanged",
    "limit-in-32-bits",
    "limit-over-all-rows",
    "limit-counts-elements",
];

/// What is carried from step to step, and what comes out.
const RECIPE_STEP_DEFECTS: &[&str] = &[
    "recipe-does-step-one-and-copies",
    "recipe-copies",
    "recipe-does-the-last-step-only",
    "recipe-always-from-the-first-list",
    "recipe-steps-past-16-copy",
    "recipe-last-of-32-copies",
    "recipe-refused-step-skipped",
    "recipe-row-refusals-before-any-9",
    "recipe-9-before-row-refusals",
    "recipe-null-row-values-counted-when-carried",
    "recipe-nulls-valid-when-carried",
    "recipe-smallest-is-null-when-carried",
    "recipe-null-rows-valid-when-carried",
    "recipe-no-steps-as-they-lie",
    "recipe-no-steps-without-9",
    "recipe-no-steps-malformed",
    "recipe-elements-of-the-first-list",
    "recipe-null-rows-of-the-first-list",
    "recipe-null-elements-not-counted",
    "recipe-second-list-is-the-first",
    "recipe-second-list-is-the-carried",
    "recipe-union-sides-exchanged",
    "recipe-intersect-sides-exchanged",
];

/// Malformed recipes.
const MALFORMED_DEFECTS: &[&str] = &[
    "recipe-length-rounded-down",
    "recipe-33-steps-accepted",
    "recipe-32-steps-refused",
    "recipe-steps-not-counted",
    "recipe-code-11-accepted",
    "recipe-codes-not-tested",
    "recipe-nine-columns-accepted",
    "recipe-eight-columns-refused",
    "recipe-columns-not-counted",
    "recipe-absent-column-accepted",
    "recipe-column-one-past-accepted",
    "recipe-column-of-eight",
    "recipe-unused-number-not-tested",
    "recipe-unused-number-not-tested-from-offset-0",
    "recipe-last-unused-number-not-tested",
    "recipe-first-unused-number-not-tested",
    "recipe-unused-number-tested-as-column",
    "recipe-only-first-step-tested",
    "recipe-numbers-cut-to-a-byte",
    "recipe-ragged-numbers-give-10",
    "recipe-1-before-10",
    "recipe-3-before-10",
    "recipe-10-after-3",
];

/// A recipe's columns.
const RECIPE_COLUMN_DEFECTS: &[&str] = &[
    "recipe-columns-by-step-number",
    "recipe-columns-in-order",
    "recipe-last-two-columns-exchanged",
    "recipe-arguments-row-by-row",
    "recipe-argument-bits-from-0",
    "recipe-argument-bits-from-a-byte",
    "recipe-argument-bitmap-for-all-rows",
    "recipe-argument-length-not-tested",
    "recipe-longer-arguments-accepted",
    "recipe-one-value-a-column-accepted",
    "recipe-arguments-not-tested-where-unused",
    "recipe-second-list-not-tested",
    "recipe-second-list-tested-where-used",
    "recipe-second-rows-not-counted",
    "right-no-offsets-refused",
    "right-no-offsets-bitmap-not-tested",
    "right-no-offsets-are-one-row",
    "right-no-offsets-suit-any-rows",
    "argument-bitmap-not-tested",
    "2-before-1",
    "3-before-2",
];

const TRAY_DEFECTS: &[&str] = &[
    "recipe-trays-not-zeroed",
    "recipe-trays-not-zeroed-after-refusal",
    "recipe-trays-not-zeroed-after-10",
    "recipe-trays-not-zeroed-after-15",
    "recipe-trays-not-zeroed-after-own-answers",
    "recipe-unwritten-trays-not-zeroed",
    "recipe-tray-two-not-zeroed",
    "recipe-tray-bits-not-zeroed",
    "recipe-tray-tail-not-zeroed",
    "recipe-trays-cleared-to-smallest",
    "recipe-trays-exchanged",
    "recipe-room-of-the-other-tray-tested",
    "recipe-room-of-tray-two-tested",
    "recipe-room-of-the-output-tested",
    "recipe-room-of-the-output-for-trays",
    "recipe-tray-room-not-tested",
    "recipe-tray-two-offsets-short-accepted",
    "recipe-output-bitmap-two-bytes-short-accepted",
    "recipe-output-used-as-a-tray",
    "recipe-last-step-needs-a-tray",
    "recipe-tray-size-not-tested",
];

const TALLY_DEFECTS: &[&str] = &[
    "recipe-refused-counted-as-finished",
    "recipe-refused-counted-in-both",
    "recipe-9-counted-as-finished",
    "recipe-10-not-in-tally",
    "recipe-tally-swapped",
    "recipe-tally-wraps",
    "recipe-tally-stops-at-2-to-the-63",
    "recipe-tally-stops-one-early",
    "recipe-tally-in-32-bits",
    "recipe-tally-tail-cleared",
    "recipe-tally-counts-own-answers",
    "recipe-short-tally-accepted",
];

/// The stations of the tally, and those that there are not.
const STATION_DEFECTS: &[&str] = &[
    "recipe-neighbour-counted",
    "recipe-station-0-counted-for-all",
    "recipe-all-stations-counted",
    "recipe-stations-from-the-last",
    "recipe-tally-station-by-station",
    "recipe-tally-carries-to-the-neighbour",
    "recipe-station-15-refused",
    "recipe-station-16-accepted",
    "recipe-station-cut-to-four-bits",
    "recipe-station-cut-to-a-byte",
    "recipe-15-counted",
    "recipe-15-counted-for-the-last",
    "recipe-15-after-10",
    "recipe-15-after-3",
    "recipe-15-before-own-answers",
    "recipe-15-clears-the-output",
];

/// Wrong versions of operations that recipes must report by themselves.
const OPERATION_DEFECTS_IN_RECIPES: &[&str] = &[
    "reverse-of-two-unchanged",
    "distinct-keeps-last",
    "distinct-null-equals-smallest",
    "union-null-equals-smallest",
    "intersect-null-equals-smallest",
    "matches-null-as-smallest",
    "null-slot-past-the-first-byte-holds-0",
    "null-elements-counted-by-number",
    "pops-swapped",
    "pop-keeps-single-element",
    "to-minus-1-excluded",
    "stride-0-before-bounds",
    "stride-size-before-direction",
    "equal-bounds-empty",
    "one-step-too-many",
    "counts-up-where-it-should-count-down",
    "4-only-in-first-row",
    "absent-stride-follows-bounds",
    "last-bad-row-decides",
    "resize-8-missing",
    "resize-null-fill-is-0",
    "resize-8-before-7",
    "replace-null-from-gives-null",
    "remove-null-unchanged",
    "limit-over-all-rows",
    "union-right-first",
    "intersect-left-walked",
    "right-first-offset-taken-as-0",
    "right-null-rows-shown",
    "null-row-values-kept",
    "room-for-input-demanded",
    "no-offset-for-no-rows",
    "9-writes-offsets",
    "ragged-accepted",
    "short-counts-accepted",
    "size-one-over-accepted",
    "101-before-100",
    "short-values-accepted",
    "short-element-bitmap-accepted",
    "count-tail-cleared",
    "null-elements-not-counted",
];

/// Result form and room.
const RESULT_DEFECTS: &[&str] = &[
    "number-under-null-kept",
    "null-slot-past-the-first-byte-holds-0",
    "null-elements-counted-by-number",
    "null-slot-keeps-content",
    "spare-bits-kept",
    "spare-bits-set",
    "bits-added-to-content",
    "bitmaps-not-written-when-absent",
    "tail-cleared",
    "tail-bitmap-byte-cleared",
    "null-count-with-spare-bits",
    "null-elements-not-counted",
    "null-rows-counted-by-offsets",
    "counts-big-endian",
    "count-tail-cleared",
    "exact-room-refused",
    "short-row-bitmap-accepted",
    "short-element-bitmap-accepted",
    "short-values-accepted",
    "room-for-input-demanded",
    "no-offset-for-no-rows",
    "9-writes-offsets",
    "refusal-writes-counts",
    "refusal-clears-outputs",
];

/// Answers of the entry, and writes outside the lent slices.
const ENTRY_DEFECTS: &[&str] = &[
    "ragged-accepted",
    "ragged-output-accepted",
    "short-counts-accepted",
    "size-one-over-accepted",
    "at-size-refused",
    "101-before-100",
    "100-before-102",
    "unknown-operation-done",
    "operation-code-cut-to-a-byte",
    "operations-of-other-entries-done",
    "writes-behind-an-output",
    "writes-behind-the-counts",
    "writes-an-input",
    "state-between-calls",
];

/// The name of the wrong version that is wanted, "none", or nothing.
pub fn defect() -> &'static str {
    static NAME: OnceLock<String> = OnceLock::new();
    let name = NAME.get_or_init(|| {
        let name = std::env::var("HARNESS_DEFECT").unwrap_or_default();
        let known = name.is_empty() || name == "none" || is_known(&name);
        assert!(known, "no such defect: {name}");
        name
    });
    name.as_str()
}

fn is_known(name: &str) -> bool {
    let mut lists = OF_EACH_ROUTE.to_vec();
    lists.extend(DEFECTS.iter().map(|(_, names)| names));
    lists.extend(TYPED_DEFECTS.iter().map(|(_, _, names)| names));
    lists.extend([EVERYWHERE, TYPED_EVERYWHERE, TYPED_OPERATION_DEFECTS]);
    lists.extend([TYPED_SIZE_DEFECTS, TYPED_LARGE_DEFECTS]);
    lists.extend([LARGE_EVERYWHERE, LARGE_RESULT_DEFECTS]);
    name == NO_SLOT || lists.iter().any(|names| names.contains(&name))
}

pub fn is(name: &str) -> bool {
    debug_assert!(is_known(name), "{name}");
    defect() == name
}

//! The C entries: which slices each takes, how columns lie in them, and the answers that an entry
//! gives by itself: over bytes 100, 101 and 102, typed 100 alone. A case is one call, as bytes; the
//! bytes of whole numbers are what a typed call is lent. Large lists, ListView columns, a recipe over
//! some of its rows and the operations that use a work area have typed entries alone.
//!
//! An operation is added by its line in `OPERATIONS`, an entry by its arm in each function of
//! `Entry`. The recipe's entry reaches no operation of its own; its trays and its tally, which go
//! in and come back, stand among the outputs, and so does a work area.

use crate::hashed;
use crate::model::{
    self, ArgumentColumn, Bitmap, ListColumn, Operation, Recipe, RecipeRefusal, ResultForm, Role,
    Shown, Slots, Tally, Width,
};
use crate::views::ViewColumn;
use crate::windows::{self, Window};
use std::ops::Range;

pub const RAGGED: u32 = 100;
pub const OVER_SIZE: u32 = 101;
pub const NO_SUCH_OPERATION: u32 = 102;

/// A typed entry's only answer of its own: a code that it does not serve, or too few counts or, of a
/// recipe, too short a tally.
pub const NOT_SERVED: u32 = 100;

/// The two ways in which a call is made.
#[derive(Clone, Copy, PartialEq, Eq, Debug)]
pub enum Route {
    Bytes,
    Typed,
}

impl Route {
    pub fn name(self) -> &'static str {
        match self {
            Route::Bytes => "over bytes",
            Route::Typed => "typed",
        }
    }
}

/// An entry of one width of offsets.
#[derive(Clone, Copy, PartialEq, Eq, Debug)]
pub struct Entry {
    pub kind: Kind,
    pub width: Width,
}

/// Which entry it is, with the operation code that it is given; a recipe's with its station and the
/// number of its argument columns, or with the rows that are looked at. Those that are hashed use a
/// work area.
#[derive(Clone, Copy, PartialEq, Eq, Debug)]
pub enum Kind {
    List(u32),
    AnyValue,
    Element,
    Lists(u32),
    ListWith(u32),
    ListRepeat,
    Recipe { station: u32, columns: usize },
    RecipeRows { window: Window, columns: usize },
    ImportView,
    ExportView,
    DistinctHashed,
    ListsHashed(u32),
}

impl Kind {
    pub const fn at(self, width: Width) -> Entry {
        Entry { kind: self, width }
    }
}

/// Every operation of the port, with the entry that reaches it and its names, the second one for
/// large lists.
const OPERATIONS: [(Kind, Operation, &str, &str); 15] = [
    (Kind::List(0), Operation::Reverse, "reverse", "large reverse"),
    (Kind::List(1), Operation::Distinct, "distinct", "large distinct"),
    (Kind::List(2), Operation::PopFront, "pop front", "large pop front"),
    (Kind::List(3), Operation::PopBack, "pop back", "large pop back"),
    (Kind::AnyValue, Operation::AnyValue, "any-value", "large any-value"),
    (Kind::Element, Operation::Element, "element", "large element"),
    (Kind::Lists(9), Operation::Union, "union", "large union"),
    (Kind::Lists(10), Operation::Intersect, "intersect", "large intersect"),
    (Kind::ListWith(4), Operation::Slice, "slice", "large slice"),
    (
        Kind::ListWith(5),
        Operation::SliceWithoutStride,
        "slice without stride",
        "large slice without stride",
    ),
    (Kind::ListWith(6), Operation::Resize, "resize", "large resize"),
    (
        Kind::ListWith(11),
        Operation::ResizeWithoutFill,
        "resize without fill",
        "large resize without fill",
    ),
    (Kind::ListWith(7), Operation::Replace, "replace", "large replace"),
    (Kind::ListWith(8), Operation::Remove, "remove", "large remove"),
    (Kind::ListRepeat, Operation::ListRepeat, "list-repeat", "large list-repeat"),
];

/// What the slots of a slice are.
#[derive(Clone, Copy, PartialEq, Eq, Debug)]
pub enum Content {
    Offsets,
    Values,
    RowValues,
    Bits,
    Numbers,
    Tally,
    /// The offsets of views, one a row, and their sizes.
    ViewOffsets,
    Sizes,
    /// The slots of a work area.
    Area,
}

/// One slice of an entry: bytes a slot, and the most slots that the entry takes (bitmaps and the
/// numbers of a recipe may have any length).
#[derive(Clone, Copy, Debug)]
pub struct SliceKind {
    pub name: &'static str,
    pub content: Content,
    pub width: usize,
    pub most: Option<usize>,
}

impl SliceKind {
    fn alignment(self, route: Route) -> usize {
        match route {
            Route::Bytes => 1,
            Route::Typed => self.typed_width(),
        }
    }

    /// Bytes a slot where the entry is typed.
    pub fn typed_width(self) -> usize {
        if self.content == Content::Tally {
            8
        } else {
            self.width
        }
    }
}

pub const MOST_ROWS: usize = 4096;
pub const MOST_VALUES: usize = 16384;

/// The most lists in the outer rows of list-repeat.
pub const MOST_INNER_ROWS: usize = 16384;

/// The most values in the argument columns of a recipe.
pub const MOST_ARGUMENTS: usize = 32768;

const fn offsets(name: &'static str, most_rows: usize) -> SliceKind {
    SliceKind { name, content: Content::Offsets, width: 4, most: Some(most_rows + 1) }
}

/// One number of 32 bits a row.
const fn views(name: &'static str, content: Content) -> SliceKind {
    SliceKind { name, content, width: 4, most: Some(MOST_ROWS) }
}

const fn values(name: &'static str) -> SliceKind {
    SliceKind { name, content: Content::Values, width: 8, most: Some(MOST_VALUES) }
}

/// One value a row.
const fn row_values(name: &'static str) -> SliceKind {
    SliceKind { name, content: Content::RowValues, width: 8, most: Some(MOST_ROWS) }
}

const fn bits(name: &'static str) -> SliceKind {
    SliceKind { name, content: Content::Bits, width: 1, most: None }
}

const LISTS: [SliceKind; 8] = [
    offsets("offsets", MOST_ROWS),
    bits("rows"),
    values("values"),
    bits("elements"),
    offsets("right offsets", MOST_ROWS),
    bits("right rows"),
    values("right values"),
    bits("right elements"),
];
const INDEXES: [SliceKind; 2] = [row_values("indexes"), bits("index bits")];
const TIMES: [SliceKind; 2] = [row_values("times"), bits("times bits")];
const ARGUMENTS: [SliceKind; 6] = [
    row_values("first"),
    bits("first bits"),
    row_values("second"),
    bits("second bits"),
    row_values("third"),
    bits("third bits"),
];
const VALUE_ANSWER: [SliceKind; 2] = [row_values("output values"), bits("output rows")];
const LIST_ANSWER: [SliceKind; 4] = [
    offsets("output offsets", MOST_ROWS),
    bits("output rows"),
    values("output values"),
    bits("output elements"),
];
const LIST_OF_LISTS_ANSWER: [SliceKind; 6] = [
    offsets("output offsets", MOST_ROWS),
    bits("output rows"),
    offsets("inner offsets", MOST_INNER_ROWS),
    bits("inner rows"),
    values("output values"),
    bits("output elements"),
];

/// A list answer, and the work area, of which any number of slots may be lent.
const HASHED_OUTPUTS: [SliceKind; 5] = [
    LIST_ANSWER[0],
    LIST_ANSWER[1],
    LIST_ANSWER[2],
    LIST_ANSWER[3],
    SliceKind { name: "work area", content: Content::Area, width: 4, most: None },
];

/// The place of the work area among them.
pub const AREA: usize = 4;

const VIEW: [SliceKind; 5] = [
    views("offsets", Content::ViewOffsets),
    views("sizes", Content::Sizes),
    bits("rows"),
    values("values"),
    bits("elements"),
];
const VIEW_ANSWER: [SliceKind; 5] = [
    views("output offsets", Content::ViewOffsets),
    views("output sizes", Content::Sizes),
    bits("output rows"),
    values("output values"),
    bits("output elements"),
];

const RECIPE_INPUTS: [SliceKind; 11] = [
    SliceKind { name: "numbers", content: Content::Numbers, width: 4, most: None },
    offsets("offsets", MOST_ROWS),
    bits("rows"),
    values("values"),
    bits("elements"),
    offsets("second offsets", MOST_ROWS),
    bits("second rows"),
    values("second values"),
    bits("second elements"),
    SliceKind {
        name: "arguments",
        content: Content::RowValues,
        width: 8,
        most: Some(MOST_ARGUMENTS),
    },
    bits("argument bits"),
];
/// Two trays of four slices each, the output, and the tally, of which the first 256 bytes are taken.
const RECIPE_OUTPUTS: [SliceKind; 13] = [
    offsets("tray one offsets", MOST_ROWS),
    bits("tray one rows"),
    values("tray one values"),
    bits("tray one elements"),
    offsets("tray two offsets", MOST_ROWS),
    bits("tray two rows"),
    values("tray two values"),
    bits("tray two elements"),
    offsets("output offsets", MOST_ROWS),
    bits("output rows"),
    values("output values"),
    bits("output elements"),
    SliceKind { name: "tally", content: Content::Tally, width: 1, most: None },
];

/// The same slices with offsets of 64 bits.
const fn widened<const N: usize>(mut kinds: [SliceKind; N]) -> [SliceKind; N] {
    let mut at = 0;
    while at < N {
        if let Content::Offsets = kinds[at].content {
            kinds[at].width = Width::Wide.bytes();
        }
        at += 1;
    }
    kinds
}

const LARGE_LIST_ANSWER: [SliceKind; 4] = widened(LIST_ANSWER);
const LARGE_LIST_OF_LISTS_ANSWER: [SliceKind; 6] = widened(LIST_OF_LISTS_ANSWER);
const LARGE_RECIPE_OUTPUTS: [SliceKind; 13] = widened(RECIPE_OUTPUTS);

/// The slices of a recipe's trays among its outputs, those of its result, and its tally.
pub const TRAYS: Range<usize> = 0..8;
pub const RECIPE_RESULT: Range<usize> = 8..12;
pub const TALLY: usize = 12;
pub const TALLY_BYTES: usize = 256;

impl Entry {
    /// Every operation of the port, as the entry that reaches it at this width.
    pub fn all(width: Width) -> impl Iterator<Item = Entry> {
        OPERATIONS.into_iter().map(move |(kind, ..)| kind.at(width))
    }

    /// The entries for ListView columns.
    pub const IMPORT: Entry = Kind::ImportView.at(Width::Narrow);
    pub const EXPORT: Entry = Kind::ExportView.at(Width::Narrow);

    /// The entries that use a work area.
    pub const HASHED: [Entry; 3] = [
        Kind::DistinctHashed.at(Width::Narrow),
        Kind::ListsHashed(9).at(Width::Narrow),
        Kind::ListsHashed(10).at(Width::Narrow),
    ];

    /// The entry of recipes over some of their rows, for none of them and without columns.
    pub const RECIPE_ROWS: Entry =
        Kind::RecipeRows { window: Window { begin: 0, end: 0 }, columns: 0 }.at(Width::Narrow);

    /// The entry for an operation.
    pub fn of(operation: Operation, width: Width) -> Entry {
        if operation == Operation::ExportView {
            return Entry::EXPORT;
        }
        let line = OPERATIONS.iter().find(|(_, one, ..)| *one == operation);
        line.expect("every operation has an entry").0.at(width)
    }

    pub fn operation(self) -> Option<Operation> {
        if self.kind == Kind::ExportView {
            return Some(Operation::ExportView);
        }
        let line = OPERATIONS.iter().find(|(kind, ..)| *kind == self.without_area().kind);
        line.map(|(_, operation, ..)| *operation)
    }

    /// The entry of the same operation that uses no work area.
    pub fn without_area(self) -> Entry {
        let kind = match self.kind {
            Kind::DistinctHashed => Kind::List(1),
            Kind::ListsHashed(code) => Kind::Lists(code),
            kind => kind,
        };
        kind.at(self.width)
    }

    /// The operation that the typed entry does by this code: one entry has all those on one list.
    pub fn typed_operation(self) -> Option<Operation> {
        match self.kind {
            Kind::List(code) | Kind::ListWith(code) => {
                let of = |kind: Kind| kind.at(self.width).operation();
                of(Kind::List(code)).or(of(Kind::ListWith(code)))
            }
            _ => self.operation(),
        }
    }

    /// The operation of an entry whose code is one of its own.
    pub fn known_operation(self) -> Operation {
        self.operation().expect("a code that the entry knows")
    }

    /// The refusals that the operation gives after 3 and before 9.
    pub fn refusals(self) -> &'static [u32] {
        self.operation().map_or(&[], |operation| operation.refusals(self.width))
    }

    pub fn is_recipe(self) -> bool {
        matches!(self.kind, Kind::Recipe { .. })
    }

    /// Whether it is for a recipe over some of its rows, which has no station and no tally.
    pub fn is_window(self) -> bool {
        matches!(self.kind, Kind::RecipeRows { .. })
    }

    /// Whether it takes the numbers of a recipe and two trays.
    pub fn has_steps(self) -> bool {
        self.is_recipe() || self.is_window()
    }

    pub fn is_wide(self) -> bool {
        self.width == Width::Wide
    }

    /// Whether it is for ListView columns.
    pub fn is_view(self) -> bool {
        matches!(self.kind, Kind::ImportView | Kind::ExportView)
    }

    /// Whether it uses a work area.
    pub fn is_hashed(self) -> bool {
        matches!(self.kind, Kind::DistinctHashed | Kind::ListsHashed(_))
    }

    /// Whether there is no such entry over bytes.
    pub fn is_typed_only(self) -> bool {
        self.is_wide() || self.is_view() || self.is_window() || self.is_hashed()
    }

    /// Whether its typed entry serves it, by its code if it takes one.
    pub fn is_served(self) -> bool {
        self.typed_operation().is_some() || self.has_steps() || self.is_view()
    }

    /// The entry of recipes, for station 0 and without columns.
    pub fn recipes(width: Width) -> Entry {
        Kind::Recipe { station: 0, columns: 0 }.at(width)
    }

    /// The station and the number of columns of a recipe.
    pub fn recipe(self) -> (u32, usize) {
        let Kind::Recipe { station, columns } = self.kind else { panic!("the entry of recipes") };
        (station, columns)
    }

    /// The number of columns of a recipe, over all its rows or some of them.
    pub fn columns(self) -> usize {
        match self.kind {
            Kind::Recipe { columns, .. } | Kind::RecipeRows { columns, .. } => columns,
            _ => panic!("an entry of recipes"),
        }
    }

    /// The rows that a recipe is run over.
    pub fn window(self) -> Window {
        let Kind::RecipeRows { window, .. } = self.kind else { panic!("the entry of windows") };
        window
    }

    pub fn with_station(self, station: u32) -> Entry {
        Kind::Recipe { station, columns: self.recipe().1 }.at(self.width)
    }

    pub fn with_columns(self, columns: usize) -> Entry {
        Kind::Recipe { station: self.recipe().0, columns }.at(self.width)
    }

    pub fn name(self) -> &'static str {
        let names = match OPERATIONS.iter().find(|(kind, ..)| *kind == self.kind) {
            _ if self.is_recipe() => ["recipe", "large recipe"],
            _ if self.is_window() => ["recipe rows", "large recipe rows"],
            _ if self.kind == Kind::ImportView => ["import view", "large import view"],
            _ if self.kind == Kind::ExportView => ["export view", "large export view"],
            _ if self == Entry::HASHED[0] => ["distinct hashed", "large distinct hashed"],
            _ if self == Entry::HASHED[1] => ["union hashed", "large union hashed"],
            _ if self == Entry::HASHED[2] => ["intersect hashed", "large intersect hashed"],
            Some((_, _, name, large)) => [*name, *large],
            None => ["unknown", "large unknown"],
        };
        names[self.width as usize]
    }

    /// The name by the code alone, whichever entry has it.
    pub fn typed_name(self) -> &'static str {
        let operation = self.typed_operation().filter(|_| !self.is_hashed());
        operation.map_or(self.name(), |operation| Entry::of(operation, self.width).name())
    }

    /// The same entry with another code, if it takes one.
    pub fn with_code(self, code: u32) -> Option<Entry> {
        let kind = match self.kind {
            Kind::List(_) => Kind::List(code),
            Kind::Lists(_) => Kind::Lists(code),
            Kind::ListWith(_) => Kind::ListWith(code),
            Kind::ListsHashed(_) => Kind::ListsHashed(code),
            Kind::DistinctHashed => return None,
            Kind::AnyValue | Kind::Element | Kind::ListRepeat => return None,
            Kind::Recipe { .. } | Kind::RecipeRows { .. } => return None,
            Kind::ImportView | Kind::ExportView => return None,
        };
        Some(kind.at(self.width))
    }

    /// How many list columns, or ListView columns, come first among the inputs.
    pub fn lists(self) -> usize {
        match self.kind {
            Kind::Lists(_) | Kind::Recipe { .. } | Kind::RecipeRows { .. } => 2,
            Kind::ListsHashed(_) => 2,
            _ => 1,
        }
    }

    /// The argument columns that the operation takes, which are the first of those behind the
    /// lists.
    pub fn roles(self) -> &'static [Role] {
        self.operation().map_or(&[], Operation::roles)
    }

    fn argument_kinds(self) -> &'static [SliceKind] {
        match self.kind {
            Kind::Element => &INDEXES,
            Kind::ListWith(_) => &ARGUMENTS,
            Kind::ListRepeat => &TIMES,
            Kind::Recipe { .. } | Kind::RecipeRows { .. } => &RECIPE_INPUTS[9..],
            Kind::List(_) | Kind::AnyValue | Kind::Lists(_) => &[],
            Kind::ImportView | Kind::ExportView => &[],
            Kind::DistinctHashed | Kind::ListsHashed(_) => &[],
        }
    }

    /// How many argument columns are lent, among them those that the operation does not take; those
    /// of a recipe lie in one slice.
    pub fn arguments(self) -> usize {
        self.argument_kinds().len() / 2
    }

    /// How many of them are looked at.
    pub fn taken(self) -> usize {
        if self.has_steps() {
            1
        } else {
            self.roles().len()
        }
    }

    pub fn inputs(self) -> Vec<SliceKind> {
        let mut kinds = match self.kind {
            Kind::Recipe { .. } | Kind::RecipeRows { .. } => RECIPE_INPUTS.to_vec(),
            Kind::ImportView => VIEW.to_vec(),
            _ => [&LISTS[..4 * self.lists()], self.argument_kinds()].concat(),
        };
        let offsets = kinds.iter_mut().filter(|kind| kind.content == Content::Offsets);
        offsets.for_each(|kind| kind.width = self.width.bytes());
        kinds
    }

    /// The bitmaps among the inputs, each of which comes with a starting bit.
    pub fn bitmaps(self) -> Vec<SliceKind> {
        let mut kinds = self.inputs();
        kinds.retain(|kind| kind.content == Content::Bits);
        kinds
    }

    /// Those of the columns that are looked at, which come first.
    pub fn taken_bitmaps(self) -> Vec<SliceKind> {
        let mut kinds = self.bitmaps();
        kinds.truncate(2 * self.lists() + self.taken());
        kinds
    }

    pub fn outputs(self) -> &'static [SliceKind] {
        match (self.kind, self.width) {
            (Kind::AnyValue | Kind::Element, _) => &VALUE_ANSWER,
            (Kind::ListRepeat, Width::Narrow) => &LIST_OF_LISTS_ANSWER,
            (Kind::ListRepeat, Width::Wide) => &LARGE_LIST_OF_LISTS_ANSWER,
            (Kind::Recipe { .. }, Width::Narrow) => &RECIPE_OUTPUTS,
            (Kind::Recipe { .. }, Width::Wide) => &LARGE_RECIPE_OUTPUTS,
            (Kind::RecipeRows { .. }, _) => &RECIPE_OUTPUTS[..TALLY],
            (Kind::ExportView, _) => &VIEW_ANSWER,
            (Kind::DistinctHashed | Kind::ListsHashed(_), _) => &HASHED_OUTPUTS,
            (_, Width::Narrow) => &LIST_ANSWER,
            (_, Width::Wide) => &LARGE_LIST_ANSWER,
        }
    }

    /// The outputs that hold the result.
    pub fn results(self) -> Range<usize> {
        if self.has_steps() {
            RECIPE_RESULT
        } else if self.is_hashed() {
            0..AREA
        } else {
            0..self.outputs().len()
        }
    }

    /// The outputs that hold the values of the result and their bitmap.
    pub fn value_slices(self) -> (usize, usize) {
        let end = self.results().end;
        (end - 2, end - 1)
    }

    /// The bytes of the counts that an accepted call writes: as many counts as result slices, but
    /// that export gives a list answer in five slices.
    pub fn count_bytes(self) -> usize {
        match self.kind {
            Kind::ExportView => 32,
            _ => 8 * self.results().len(),
        }
    }

    /// The slots of each result slice that a result with these counts takes.
    pub fn written_slots(self, counts: &[u64]) -> Vec<usize> {
        let counts: Vec<usize> = counts.iter().map(|count| *count as usize).collect();
        let offsets_and_bits = |rows: usize| [rows.saturating_add(1), model::bitmap_bytes(rows)];
        let values_and_bits = |values: usize| [values, model::bitmap_bytes(values)];
        match counts[..] {
            [rows, _] => values_and_bits(rows).to_vec(),
            [rows, elements, ..] if self.kind == Kind::ExportView => {
                let views = [rows, rows, model::bitmap_bytes(rows)];
                [&views[..], &values_and_bits(elements)].concat()
            }
            [rows, elements, _, _] => [offsets_and_bits(rows), values_and_bits(elements)].concat(),
            [rows, elements, _, _, inner_rows, _] => {
                let lists = [offsets_and_bits(rows), offsets_and_bits(inner_rows)];
                [lists.concat(), values_and_bits(elements).to_vec()].concat()
            }
            _ => panic!("an answer has two, four or six counts"),
        }
    }
}

/// The columns of a call, among them argument columns that its operation does not take; for a
/// recipe its numbers, and all argument columns as one.
#[derive(Clone, Debug)]
pub struct Input {
    pub entry: Entry,
    pub numbers: Vec<u32>,
    pub lists: Vec<ListColumn>,
    pub arguments: Vec<ArgumentColumn>,
}

impl Input {
    /// The argument columns that the operation takes.
    pub fn taken(&self) -> &[ArgumentColumn] {
        &self.arguments[..self.entry.taken()]
    }

    /// The recipe that the call brings, if it is one.
    pub fn recipe(&self) -> Option<Recipe<'_>> {
        let Entry { kind: Kind::Recipe { station, columns }, width } = self.entry else {
            return None;
        };
        let (numbers, lists) = (&self.numbers, &self.lists);
        Some(Recipe { width, station, numbers, columns, lists, arguments: &self.arguments[0] })
    }

    /// The recipe that the call brings over some of its rows, if it is one, and these rows; it names
    /// no station.
    pub fn recipe_of_rows(&self) -> Option<(Recipe<'_>, Window)> {
        let Entry { kind: Kind::RecipeRows { window, columns }, width } = self.entry else {
            return None;
        };
        let (numbers, lists, arguments) = (&self.numbers, &self.lists, &self.arguments[0]);
        Some((Recipe { width, station: 0, numbers, columns, lists, arguments }, window))
    }

    /// The slices of all columns, in the order of the entry's inputs.
    pub fn encode(&self) -> Vec<Vec<u8>> {
        let mut slices = Vec::new();
        if self.entry.has_steps() {
            slices.push(encode_u32(&self.numbers));
        }
        for list in &self.lists {
            slices.push(encode_offsets(&list.offsets, self.entry.width));
            slices.push(list.rows.bytes.clone());
            slices.push(encode_i64(&list.values));
            slices.push(list.elements.bytes.clone());
        }
        for argument in &self.arguments {
            slices.push(encode_i64(&argument.values));
            slices.push(argument.bits.bytes.clone());
        }
        slices
    }

    /// The bitmaps of all columns, in the order of the entry's inputs.
    pub fn bitmaps(&self) -> Vec<&Bitmap> {
        let lists = self.lists.iter().flat_map(|list| [&list.rows, &list.elements]);
        lists.chain(self.arguments.iter().map(|argument| &argument.bits)).collect()
    }

    pub fn bitmaps_mut(&mut self) -> Vec<&mut Bitmap> {
        let lists = self.lists.iter_mut().flat_map(|list| [&mut list.rows, &mut list.elements]);
        lists.chain(self.arguments.iter_mut().map(|argument| &mut argument.bits)).collect()
    }

    /// The starting bits of all bitmaps, in their order.
    pub fn starts(&self) -> Vec<usize> {
        self.bitmaps().iter().map(|bitmap| bitmap.start).collect()
    }

    fn decode(entry: Entry, slices: &[Vec<u8>], starts: &[usize]) -> Input {
        let (numbers, columns) = slices.split_at(usize::from(entry.has_steps()));
        let (lists, arguments) = columns.split_at(4 * entry.lists());
        let mut starts = starts.iter().copied();
        let mut bitmap = |bytes: &Vec<u8>| {
            let start = starts.next().expect("a starting bit for each bitmap");
            Bitmap { bytes: bytes.clone(), start }
        };
        let list = |part: &[Vec<u8>]| ListColumn {
            offsets: decode_offsets(&part[0], entry.width),
            rows: bitmap(&part[1]),
            values: decode_i64(&part[2]),
            elements: bitmap(&part[3]),
        };
        let lists = lists.chunks(4).map(list).collect();
        let argument = |part: &[Vec<u8>]| ArgumentColumn {
            values: decode_i64(&part[0]),
            bits: bitmap(&part[1]),
        };
        let arguments = arguments.chunks(2).map(argument).collect();
        Input {
            entry,
            numbers: numbers.iter().flat_map(|bytes| decode_u32(bytes)).collect(),
            lists,
            arguments,
        }
    }
}

/// One call: the bytes of each input, the starting bit of each bitmap among them, and what outputs
/// and counts hold before it.
#[derive(Clone, Debug)]
pub struct Case {
    pub entry: Entry,
    pub inputs: Vec<Vec<u8>>,
    pub starts: Vec<usize>,
    pub outputs: Vec<Vec<u8>>,
    pub counts: Vec<u8>,
}

/// All that the answer of a call with well-formed columns may depend on: the entry, a recipe's
/// numbers, what the columns show, the slots lent for results and trays, and a recipe's tally; the
/// entry holds a recipe's station.
#[derive(Debug, PartialEq)]
pub struct Start {
    entry: Entry,
    numbers: Vec<u32>,
    shown: Shown,
    lengths: Vec<usize>,
    tally: Option<Tally>,
}

/// What a call must answer, and the bytes that it must write at the front of each output, if it
/// writes any, and of the counts.
#[derive(Clone, Debug, PartialEq)]
pub struct Expected {
    pub number: u32,
    pub written: Vec<Vec<u8>>,
    pub counts: Vec<u8>,
}

impl Expected {
    pub fn refusal(number: u32) -> Expected {
        Expected { number, written: Vec::new(), counts: Vec::new() }
    }

    pub fn accepted(form: &ResultForm, width: Width) -> Expected {
        Expected {
            number: 0,
            written: form.slices.iter().map(|slots| encode_slots(slots, width)).collect(),
            counts: form.counts.iter().flat_map(|count| count.to_le_bytes()).collect(),
        }
    }
}

impl Case {
    /// The call with these columns.
    pub fn new(input: &Input, outputs: Vec<Vec<u8>>, counts: Vec<u8>) -> Case {
        let (entry, inputs, starts) = (input.entry, input.encode(), input.starts());
        Case { entry, inputs, starts, outputs, counts }
    }

    /// Lends other columns.
    pub fn lend(&mut self, input: &Input) {
        (self.entry, self.inputs, self.starts) = (input.entry, input.encode(), input.starts());
    }

    /// The rows of the first list, or of the views, counted by its offsets.
    pub fn row_count(&self) -> usize {
        let offsets = self.inputs[usize::from(self.entry.has_steps())].len();
        match self.entry.kind {
            Kind::ImportView => offsets / 4,
            _ => (offsets / self.entry.width.bytes()).max(1) - 1,
        }
    }

    /// The call of import with this column.
    pub fn of_view(view: &ViewColumn, outputs: Vec<Vec<u8>>, counts: Vec<u8>) -> Case {
        let inputs = vec![
            encode_offsets(&view.offsets, Width::Narrow),
            encode_offsets(&view.sizes, Width::Narrow),
            view.rows.bytes.clone(),
            encode_i64(&view.values),
            view.elements.bytes.clone(),
        ];
        let starts = vec![view.rows.start, view.elements.start];
        Case { entry: Entry::IMPORT, inputs, starts, outputs, counts }
    }

    /// The column that a call of import lends.
    pub fn view(&self) -> ViewColumn {
        let bitmap = |slice: usize, at: usize| Bitmap {
            bytes: self.inputs[slice].clone(),
            start: self.starts[at],
        };
        ViewColumn {
            offsets: decode_offsets(&self.inputs[0], Width::Narrow),
            sizes: decode_offsets(&self.inputs[1], Width::Narrow),
            rows: bitmap(2, 0),
            values: decode_i64(&self.inputs[3]),
            elements: bitmap(4, 1),
        }
    }

    /// The inputs with the width for which each is aligned, which is 1 over bytes.
    pub fn aligned_inputs(&self, route: Route) -> Vec<(&Vec<u8>, usize)> {
        let kinds = self.entry.inputs().into_iter();
        self.inputs.iter().zip(kinds.map(|kind| kind.alignment(route))).collect()
    }

    /// The same of the outputs and, last, the counts.
    pub fn aligned_outputs(&self, route: Route) -> Vec<(&Vec<u8>, usize)> {
        let kinds = self.entry.outputs().iter();
        let mut slices: Vec<(&Vec<u8>, usize)> =
            self.outputs.iter().zip(kinds.map(|kind| kind.alignment(route))).collect();
        slices.push((&self.counts, if route == Route::Typed { 8 } else { 1 }));
        slices
    }

    /// Every slice of the call but the counts, with its kind.
    pub fn slices(&self) -> Vec<(SliceKind, &Vec<u8>)> {
        let inputs = self.entry.inputs().into_iter().zip(&self.inputs);
        inputs.chain(self.entry.outputs().iter().copied().zip(&self.outputs)).collect()
    }

    /// The bitmaps of the columns that are looked at, each with its name, its bytes, its starting
    /// bit and the positions that it is for.
    pub fn taken_bitmaps(&self) -> Vec<(&'static str, &[u8], usize, usize)> {
        let mut positions = 0;
        let mut starts = self.starts.iter();
        let mut bitmaps = Vec::new();
        for (kind, bytes) in self.entry.inputs().into_iter().zip(&self.inputs) {
            match kind.content {
                Content::Offsets => positions = (bytes.len() / kind.width).max(1) - 1,
                Content::ViewOffsets => positions = bytes.len() / kind.width,
                Content::Values | Content::RowValues => positions = bytes.len() / 8,
                Content::Bits => {
                    let start = *starts.next().expect("a starting bit for each bitmap");
                    bitmaps.push((kind.name, bytes.as_slice(), start, positions));
                }
                Content::Numbers | Content::Tally | Content::Sizes | Content::Area => (),
            }
        }
        bitmaps.truncate(self.entry.taken_bitmaps().len());
        bitmaps
    }

    /// The same call for the typed entries. A part of a number at the end of a slice is left out; an
    /// operation on one list comes with three argument columns, which it may not take.
    pub fn typed(&self, mut column: impl FnMut() -> ArgumentColumn) -> Case {
        let kinds = self.entry.inputs().into_iter();
        let mut typed = Case {
            entry: self.entry,
            inputs: kinds.zip(&self.inputs).map(|(kind, bytes)| whole(kind, bytes)).collect(),
            starts: self.starts.clone(),
            outputs: self.outputs_whole(),
            counts: self.counts[..self.counts.len() / 8 * 8].to_vec(),
        };
        if let Kind::List(code) = self.entry.kind {
            typed.entry = Kind::ListWith(code).at(self.entry.width);
            for _ in 0..typed.entry.arguments() {
                let ArgumentColumn { values, bits } = column();
                typed.inputs.extend([encode_i64(&values), bits.bytes]);
                typed.starts.push(bits.start);
            }
        }
        typed
    }

    fn outputs_whole(&self) -> Vec<Vec<u8>> {
        let kinds = self.entry.outputs().iter();
        kinds.zip(&self.outputs).map(|(kind, bytes)| whole(*kind, bytes)).collect()
    }

    /// Whether the counts, or a recipe's tally, are too short.
    fn is_short_of_places(&self) -> bool {
        let short_tally = self.entry.is_recipe() && self.outputs[TALLY].len() < TALLY_BYTES;
        self.counts.len() < self.entry.count_bytes() || short_tally
    }

    /// The answer that the typed entry gives before the columns are looked at.
    fn typed_own_answer(&self) -> Option<u32> {
        (!self.entry.is_served() || self.is_short_of_places()).then_some(NOT_SERVED)
    }

    /// The answer that the byte entry gives before the columns are looked at.
    pub fn own_answer(&self) -> Option<u32> {
        if self.entry.operation().is_none() && !self.entry.is_recipe() {
            return Some(NO_SUCH_OPERATION);
        }
        let slices = self.slices();
        let ragged = slices.iter().any(|(kind, bytes)| bytes.len() % kind.width != 0);
        if ragged || self.is_short_of_places() {
            return Some(RAGGED);
        }
        let over = |(kind, bytes): &(SliceKind, &Vec<u8>)| {
            kind.most.is_some_and(|most| bytes.len() / kind.width > most)
        };
        slices.iter().any(over).then_some(OVER_SIZE)
    }

    pub fn decode(&self) -> Input {
        Input::decode(self.entry, &self.inputs, &self.starts)
    }

    /// What the call starts from; None where a column is not well-formed.
    pub fn start(&self) -> Option<Start> {
        if self.entry == Entry::IMPORT {
            return self.start_of_view();
        }
        let input = self.decode();
        let (lists, arguments) = (&input.lists, input.taken());
        let end = if self.entry.is_hashed() { AREA + 1 } else { self.entry.results().end };
        model::are_well_formed(lists, arguments).then(|| Start {
            entry: self.entry,
            shown: model::shown(lists, arguments),
            lengths: self.lengths(0..end),
            tally: self.entry.is_recipe().then(|| self.tally()),
            numbers: input.numbers.clone(),
        })
    }

    fn start_of_view(&self) -> Option<Start> {
        let view = self.view();
        view.refusal().is_none().then(|| Start {
            entry: self.entry,
            numbers: Vec::new(),
            shown: Shown { lists: vec![view.shown_rows()], arguments: Vec::new() },
            lengths: self.lengths(self.entry.results()),
            tally: None,
        })
    }

    /// The slots of these outputs.
    pub fn lengths(&self, outputs: Range<usize>) -> Vec<usize> {
        let kinds = self.entry.outputs()[outputs.clone()].iter();
        kinds.zip(&self.outputs[outputs]).map(|(kind, bytes)| bytes.len() / kind.width).collect()
    }

    /// What the call over bytes must answer and write; where there is none, the typed one.
    pub fn expected(&self) -> Expected {
        if self.entry.is_typed_only() {
            return self.expected_typed();
        }
        self.expected_with(self.own_answer(), self.entry.operation())
    }

    /// What the typed call must answer and write; the slices are of whole numbers.
    pub fn expected_typed(&self) -> Expected {
        self.expected_with(self.typed_own_answer(), self.entry.typed_operation())
    }

    fn expected_with(&self, own: Option<u32>, operation: Option<Operation>) -> Expected {
        if self.entry.is_recipe() {
            return self.expected_of_recipe(own);
        }
        if self.entry.is_window() {
            return self.expected_of_window(own);
        }
        if self.entry.is_hashed() {
            return self.expected_of_hashed(own, operation);
        }
        if let Some(number) = own {
            return Expected::refusal(number);
        }
        let lengths = self.lengths(self.entry.results());
        let outcome = if self.entry == Entry::IMPORT {
            self.view().outcome(&lengths)
        } else {
            let operation = operation.expect("a code that the entry knows");
            let input = self.decode();
            let taken = &input.arguments[..operation.roles().len()];
            model::outcome(self.entry.width, operation, &input.lists, taken, &lengths)
        };
        match outcome {
            Ok(form) => Expected::accepted(&form, self.entry.width),
            Err(number) => Expected::refusal(number),
        }
    }

    /// The work area is all zero after any call.
    fn expected_of_hashed(&self, own: Option<u32>, operation: Option<Operation>) -> Expected {
        let lengths = self.lengths(0..AREA + 1);
        let outcome = match (own, operation) {
            (None, Some(operation)) => {
                hashed::outcome(operation, &self.decode().lists, &lengths[..AREA], lengths[AREA])
            }
            (own, _) => Err(own.expect("a code that the entry knows")),
        };
        self.with_area(match outcome {
            Ok(form) => Expected::accepted(&form, self.entry.width),
            Err(number) => Expected::refusal(number),
        })
    }

    /// What is expected of a call, and the zeros in its work area, if it has one.
    pub fn with_area(&self, mut expected: Expected) -> Expected {
        if self.entry.is_hashed() {
            expected.written.resize(AREA, Vec::new());
            expected.written.push(vec![0; self.outputs[AREA].len()]);
        }
        expected
    }

    /// The trays are all zero after any call; the tally stays where the entry itself answers, and
    /// where there is no such station.
    fn expected_of_recipe(&self, own: Option<u32>) -> Expected {
        if let Some(number) = own {
            return Expected { written: self.zeroed_trays(), ..Expected::refusal(number) };
        }
        let outcome = self.recipe_outcome();
        let tally = match outcome {
            Err(RecipeRefusal { number: 15, .. }) => self.tally(),
            _ => model::tally_after(self.tally(), self.entry.recipe().0, outcome.is_ok()),
        };
        let tally = tally.iter().flat_map(|count| count.to_le_bytes()).collect();
        let result = match outcome {
            Ok(form) => Expected::accepted(&form, self.entry.width),
            Err(refusal) => Expected::refusal(refusal.number),
        };
        let no_result = vec![Vec::new(); RECIPE_RESULT.len() - result.written.len()];
        let written = [self.zeroed_trays(), result.written, no_result, vec![tally]].concat();
        Expected { written, ..result }
    }

    fn zeroed_trays(&self) -> Vec<Vec<u8>> {
        self.outputs[TRAYS].iter().map(|tray| vec![0; tray.len()]).collect()
    }

    /// The same over some rows, where there is no tally.
    fn expected_of_window(&self, own: Option<u32>) -> Expected {
        let result = match own.map_or_else(|| self.window_outcome(), Err) {
            Ok(form) => Expected::accepted(&form, self.entry.width),
            Err(number) => Expected::refusal(number),
        };
        Expected { written: [self.zeroed_trays(), result.written].concat(), ..result }
    }

    /// What a recipe over some of its rows comes to.
    fn window_outcome(&self) -> Result<ResultForm, u32> {
        let input = self.decode();
        let (recipe, window) = input.recipe_of_rows().expect("the call of a window");
        let room: Vec<u64> = self.lengths(0..TALLY).iter().map(|slots| *slots as u64).collect();
        let outcome = windows::outcome(&recipe, window, [&room[..4], &room[4..8], &room[8..]]);
        outcome.map_err(|refusal| refusal.number)
    }

    /// What a recipe that the entry takes comes to.
    pub fn recipe_outcome(&self) -> Result<ResultForm, RecipeRefusal> {
        let input = self.decode();
        let recipe = input.recipe().expect("the call of a recipe");
        let room: Vec<u64> = self.lengths(0..TALLY).iter().map(|slots| *slots as u64).collect();
        model::recipe_outcome(&recipe, [&room[..4], &room[4..8], &room[8..]])
    }

    /// The recipes finished and refused before the call.
    pub fn tally(&self) -> Tally {
        decode_tally(&self.outputs[TALLY])
    }
}

/// The bytes of the whole numbers in a slice; a tally is of numbers too.
fn whole(kind: SliceKind, bytes: &[u8]) -> Vec<u8> {
    bytes[..bytes.len() - bytes.len() % kind.typed_width()].to_vec()
}

/// The counts of a tally that is long enough.
pub fn decode_tally(bytes: &[u8]) -> Tally {
    let counts = decode_i64(&bytes[..TALLY_BYTES]);
    std::array::from_fn(|at| counts[at] as u64)
}

fn encode_slots(slots: &Slots, width: Width) -> Vec<u8> {
    match slots {
        Slots::Offsets(offsets) => encode_offsets(offsets, width),
        Slots::Bits(bytes) => bytes.clone(),
        Slots::Values(values) => encode_i64(values),
    }
}

/// Offsets as they lie at this width, which all of them fit.
pub fn encode_offsets(offsets: &[i64], width: Width) -> Vec<u8> {
    let narrow = |offset: &i64| i32::try_from(*offset).expect("an offset of 32 bits").to_le_bytes();
    match width {
        Width::Narrow => offsets.iter().flat_map(narrow).collect(),
        Width::Wide => encode_i64(offsets),
    }
}

/// The whole offsets in the bytes; a ragged end is left out.
pub fn decode_offsets(bytes: &[u8], width: Width) -> Vec<i64> {
    match width {
        Width::Narrow => decode_i32(bytes).into_iter().map(i64::from).collect(),
        Width::Wide => decode_i64(bytes),
    }
}

pub fn encode_i32(numbers: &[i32]) -> Vec<u8> {
    numbers.iter().flat_map(|number| number.to_le_bytes()).collect()
}

pub fn encode_u32(numbers: &[u32]) -> Vec<u8> {
    numbers.iter().flat_map(|number| number.to_le_bytes()).collect()
}

pub fn encode_i64(numbers: &[i64]) -> Vec<u8> {
    numbers.iter().flat_map(|number| number.to_le_bytes()).collect()
}

/// The whole numbers in the bytes; a ragged end is left out.
pub fn decode_i32(bytes: &[u8]) -> Vec<i32> {
    let number = |chunk: &[u8]| i32::from_le_bytes([chunk[0], chunk[1], chunk[2], chunk[3]]);
    bytes.chunks_exact(4).map(number).collect()
}

/// The whole numbers in the bytes; a ragged end is left out.
pub fn decode_u32(bytes: &[u8]) -> Vec<u32> {
    decode_i32(bytes).into_iter().map(|number| number as u32).collect()
}

/// The whole numbers in the bytes; a ragged end is left out.
pub fn decode_i64(bytes: &[u8]) -> Vec<i64> {
    let number = |chunk: &[u8]| {
        let mut eight = [0; 8];
        eight.copy_from_slice(chunk);
        i64::from_le_bytes(eight)
    };
    bytes.chunks_exact(8).map(number).collect()
}

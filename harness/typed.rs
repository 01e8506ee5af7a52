//! A library of typed entries: safe functions on slices of numbers. The port, the plain Rust and the
//! mock each give one of these for offsets of 32 bits and one for offsets of 64, by the type of an
//! offset. A list is lent as a column of `plain.rs`, and so is what is lent for results; counts and a
//! tally are numbers too.

use crate::entry::{Entry, Kind};
use crate::library::outputs;
use crate::numbers::{of_bytes, of_bytes_mut, Number};
use crate::plain::{Argument, Column, Lists, Outer};
use crate::windows::Window;

/// A list column, an argument column, and the room for a list answer and for the outer rows of
/// list-repeat's, all of them numbers.
pub type List<'a, O> = Column<'a, O, i64>;
pub type Values<'a> = Argument<'a, i64>;
pub type Room<'a, O> = Lists<'a, O, i64>;
pub type OuterRoom<'a, O> = Outer<'a, O>;

/// A ListView column, and the room for one.
#[derive(Clone, Copy)]
pub struct View<'a> {
    pub offsets: &'a [i32],
    pub sizes: &'a [i32],
    pub rows: &'a [u8],
    pub rows_start: usize,
    pub values: &'a [i64],
    pub elements: &'a [u8],
    pub elements_start: usize,
}

pub struct ViewRoom<'a> {
    pub offsets: &'a mut [i32],
    pub sizes: &'a mut [i32],
    pub rows: &'a mut [u8],
    pub values: &'a mut [i64],
    pub elements: &'a mut [u8],
}

/// The entries for ListView columns, whose lists have offsets of 32 bits.
#[derive(Clone, Copy)]
pub struct Views {
    pub import: fn(View, Room<i32>, &mut [u64]) -> u32,
    pub export: fn(List<i32>, ViewRoom, &mut [u64]) -> u32,
}

/// A recipe that is run over some of its rows; its station is not looked at.
#[derive(Clone, Copy)]
pub struct RowsOfRecipe<'a> {
    pub window: Window,
    pub recipe: Recipe<'a, i32>,
}

/// The entry for a recipe over some of its rows, whose lists have offsets of 32 bits. The rooms are
/// tray one, tray two and the output.
#[derive(Clone, Copy)]
pub struct Windows {
    pub recipe_rows: fn(RowsOfRecipe, [Room<i32>; 3], &mut [u64]) -> u32,
}

/// The entries that use a work area, whose lists have offsets of 32 bits; the area comes before the
/// counts.
#[derive(Clone, Copy)]
pub struct Hashed {
    pub distinct: fn(List<i32>, Room<i32>, &mut [u32], &mut [u64]) -> u32,
    pub lists: fn(u32, [List<i32>; 2], Room<i32>, &mut [u32], &mut [u64]) -> u32,
}

/// A recipe as it is lent: its station, its numbers, how many argument columns it has, its lists,
/// and the one slice of its arguments.
#[derive(Clone, Copy)]
pub struct Recipe<'a, O> {
    pub station: u32,
    pub numbers: &'a [u32],
    pub columns: usize,
    pub lists: [List<'a, O>; 2],
    pub arguments: Values<'a>,
}

#[derive(Clone, Copy)]
pub struct Typed<O> {
    pub list: fn(u32, List<O>, [Values; 3], Room<O>, &mut [u64]) -> u32,
    pub lists: fn(u32, [List<O>; 2], Room<O>, &mut [u64]) -> u32,
    pub any_value: fn(List<O>, &mut [i64], &mut [u8], &mut [u64]) -> u32,
    pub element: fn(List<O>, Values, &mut [i64], &mut [u8], &mut [u64]) -> u32,
    pub list_repeat: fn(List<O>, Values, OuterRoom<O>, Room<O>, &mut [u64]) -> u32,
    /// The rooms are tray one, tray two and the output; the tally comes last.
    pub recipe: fn(Recipe<O>, [Room<O>; 3], &mut [u64], &mut [u64]) -> u32,
    pub lending: Lending<O>,
}

/// The entries that say how much to lend for these, and write it into the last slice. A recipe's
/// limits name no station.
#[derive(Clone, Copy)]
pub struct Lending<O> {
    pub list: fn(u32, List<O>, [Values; 3], &mut [u64]) -> u32,
    pub lists: fn(u32, [List<O>; 2], &mut [u64]) -> u32,
    pub any_value: fn(List<O>, &mut [u64]) -> u32,
    pub element: fn(List<O>, Values, &mut [u64]) -> u32,
    pub list_repeat: fn(List<O>, Values, &mut [u64]) -> u32,
    pub limits: fn(Recipe<O>, &mut [u64]) -> u32,
}

pub fn list<'a, O: Number>(slices: &[&'a [u8]], starts: &[usize]) -> List<'a, O> {
    Column {
        offsets: of_bytes(slices[0]),
        rows: slices[1],
        rows_start: starts[0],
        values: of_bytes(slices[2]),
        elements: slices[3],
        elements_start: starts[1],
    }
}

fn values<'a>(slices: &[&'a [u8]], start: usize) -> Values<'a> {
    Argument { values: of_bytes(slices[0]), bits: slices[1], start }
}

pub fn room<'a, O: Number>([offsets, rows, values, elements]: [&'a mut [u8]; 4]) -> Room<'a, O> {
    Lists { offsets: of_bytes_mut(offsets), rows, values: of_bytes_mut(values), elements }
}

fn three_arguments<'a>(lent: &[&'a [u8]], starts: &[usize]) -> [Values<'a>; 3] {
    [0, 1, 2].map(|at| values(&lent[4 + 2 * at..], starts[2 + at]))
}

pub fn recipe<'a, O: Number>(
    station: u32,
    columns: usize,
    lent: &[&'a [u8]],
    starts: &[usize],
) -> Recipe<'a, O> {
    Recipe {
        station,
        numbers: of_bytes(lent[0]),
        columns,
        lists: [list(&lent[1..], starts), list(&lent[5..], &starts[2..])],
        arguments: values(&lent[9..], starts[4]),
    }
}

impl<O: Number> Lending<O> {
    /// Asks how much to lend for a call, in the same way.
    pub fn ask(&self, entry: Entry, lent: &[&[u8]], starts: &[usize], lengths: &mut [u8]) -> u32 {
        let lengths = of_bytes_mut(lengths);
        let first = |from: usize| list(&lent[from..], starts);
        match entry.kind {
            Kind::List(_) => panic!("a typed list operation has argument columns"),
            Kind::ListWith(code) => {
                (self.list)(code, first(0), three_arguments(lent, starts), lengths)
            }
            Kind::Lists(code) => {
                (self.lists)(code, [first(0), list(&lent[4..], &starts[2..])], lengths)
            }
            Kind::AnyValue => (self.any_value)(first(0), lengths),
            Kind::Element => (self.element)(first(0), values(&lent[4..], starts[2]), lengths),
            Kind::ListRepeat => {
                (self.list_repeat)(first(0), values(&lent[4..], starts[2]), lengths)
            }
            Kind::Recipe { station, columns } => {
                (self.limits)(recipe(station, columns, lent, starts), lengths)
            }
            Kind::ImportView | Kind::ExportView => panic!("nothing is asked of views"),
            Kind::RecipeRows { .. } => panic!("nothing is asked of windows"),
            Kind::DistinctHashed | Kind::ListsHashed(_) => panic!("nothing is asked of areas"),
        }
    }
}

impl<O: Number> Typed<O> {
    /// Calls an entry with slices of bytes that are aligned for their numbers. A list operation
    /// comes with three argument columns, whatever it takes.
    pub fn call(
        &self,
        entry: Entry,
        lent: &[&[u8]],
        starts: &[usize],
        results: &mut [&mut [u8]],
        counts: &mut [u8],
    ) -> u32 {
        let counts = of_bytes_mut(counts);
        match entry.kind {
            Kind::List(_) => panic!("a typed list operation has argument columns"),
            Kind::ListWith(code) => {
                let arguments = three_arguments(lent, starts);
                (self.list)(code, list(lent, starts), arguments, room(outputs(results)), counts)
            }
            Kind::Lists(code) => {
                let both = [list(lent, starts), list(&lent[4..], &starts[2..])];
                (self.lists)(code, both, room(outputs(results)), counts)
            }
            Kind::AnyValue => {
                let [values, rows] = outputs(results);
                (self.any_value)(list(lent, starts), of_bytes_mut(values), rows, counts)
            }
            Kind::Element => {
                let (list, indexes) = (list(lent, starts), values(&lent[4..], starts[2]));
                let [values, rows] = outputs(results);
                (self.element)(list, indexes, of_bytes_mut(values), rows, counts)
            }
            Kind::ListRepeat => {
                let (list, times) = (list(lent, starts), values(&lent[4..], starts[2]));
                let [offsets, rows, inner @ ..]: [&mut [u8]; 6] = outputs(results);
                let outer = Outer { offsets: of_bytes_mut(offsets), rows };
                (self.list_repeat)(list, times, outer, room(inner), counts)
            }
            Kind::Recipe { station, columns } => {
                let recipe = recipe(station, columns, lent, starts);
                let [a, b, c, d, e, f, g, h, i, j, k, l, tally] = outputs(results);
                let rooms = [[a, b, c, d], [e, f, g, h], [i, j, k, l]].map(room);
                (self.recipe)(recipe, rooms, counts, of_bytes_mut(tally))
            }
            Kind::ImportView | Kind::ExportView => panic!("views have entries of their own"),
            Kind::RecipeRows { .. } => panic!("windows have an entry of their own"),
            Kind::DistinctHashed | Kind::ListsHashed(_) => panic!("areas have their own entries"),
        }
    }
}

impl Hashed {
    /// Calls an entry in the same way.
    pub fn call(
        &self,
        entry: Entry,
        lent: &[&[u8]],
        starts: &[usize],
        results: &mut [&mut [u8]],
        counts: &mut [u8],
    ) -> u32 {
        let [a, b, c, d, area] = outputs(results);
        let (out, area, counts) = (room([a, b, c, d]), of_bytes_mut(area), of_bytes_mut(counts));
        match entry.kind {
            Kind::ListsHashed(code) => {
                let both = [list(lent, starts), list(&lent[4..], &starts[2..])];
                (self.lists)(code, both, out, area, counts)
            }
            _ => (self.distinct)(list(lent, starts), out, area, counts),
        }
    }
}

impl Windows {
    /// Calls the entry in the same way.
    pub fn call(
        &self,
        entry: Entry,
        lent: &[&[u8]],
        starts: &[usize],
        results: &mut [&mut [u8]],
        counts: &mut [u8],
    ) -> u32 {
        let recipe = recipe(0, entry.columns(), lent, starts);
        let [a, b, c, d, e, f, g, h, i, j, k, l] = outputs(results);
        let rooms = [[a, b, c, d], [e, f, g, h], [i, j, k, l]].map(room);
        let rows = RowsOfRecipe { window: entry.window(), recipe };
        (self.recipe_rows)(rows, rooms, of_bytes_mut(counts))
    }
}

impl Views {
    /// Calls an entry in the same way.
    pub fn call(
        &self,
        entry: Entry,
        lent: &[&[u8]],
        starts: &[usize],
        results: &mut [&mut [u8]],
        counts: &mut [u8],
    ) -> u32 {
        let counts = of_bytes_mut(counts);
        if entry == Entry::IMPORT {
            let view = View {
                offsets: of_bytes(lent[0]),
                sizes: of_bytes(lent[1]),
                rows: lent[2],
                rows_start: starts[0],
                values: of_bytes(lent[3]),
                elements: lent[4],
                elements_start: starts[1],
            };
            return (self.import)(view, room(outputs(results)), counts);
        }
        let [offsets, sizes, rows, values, elements] = outputs(results);
        let room = ViewRoom {
            offsets: of_bytes_mut(offsets),
            sizes: of_bytes_mut(sizes),
            rows,
            values: of_bytes_mut(values),
            elements,
        };
        (self.export)(list(lent, starts), room, counts)
    }
}

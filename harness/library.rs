//! A library under test: the byte entries as safe functions on byte slices, and the typed entries,
//! those of large lists, of ListView columns, of recipes over some of their rows, of grades and of
//! operations with a work area too.
//! The port, the plain Rust and the mock each give one of these. A function on bytes takes the code,
//! if there is one, or the station and the number of columns of a recipe, then the input slices and
//! the output slices in the order in which `entry.rs` lists them, then the counts; between them come
//! the starting bits of the bitmaps among the inputs. A library may lack entries.

use crate::entry::{Entry, Kind};
use crate::grades::Grades;
use crate::model::Width;
use crate::typed::{Hashed, Typed, Views, Windows};

/// An entry of so many input slices, bitmaps among them, and output slices.
type Plain<const I: usize, const S: usize, const O: usize> =
    fn([&[u8]; I], [u32; S], [&mut [u8]; O], &mut [u8]) -> u32;
type Coded<const I: usize, const S: usize, const O: usize> =
    fn(u32, [&[u8]; I], [u32; S], [&mut [u8]; O], &mut [u8]) -> u32;
type OfStation<const I: usize, const S: usize, const O: usize> =
    fn(u32, u32, [&[u8]; I], [u32; S], [&mut [u8]; O], &mut [u8]) -> u32;

#[derive(Clone, Copy)]
pub struct Library {
    pub list: Option<Coded<4, 2, 4>>,
    pub any_value: Option<Plain<4, 2, 2>>,
    pub element: Option<Plain<6, 3, 2>>,
    pub lists: Option<Coded<8, 4, 4>>,
    pub list_with: Option<Coded<10, 5, 4>>,
    pub list_repeat: Option<Plain<6, 3, 6>>,
    pub recipe: Option<OfStation<11, 5, 13>>,
    pub typed: Option<Typed<i32>>,
    pub large: Option<Typed<i64>>,
    pub grades: Option<Grades>,
    pub views: Option<Views>,
    pub windows: Option<Windows>,
    pub hashed: Option<Hashed>,
}

fn inputs<'a, const N: usize>(slices: &[&'a [u8]]) -> [&'a [u8]; N] {
    slices.try_into().expect("the call has the input slices of its entry")
}

fn bits<const N: usize>(starts: &[usize]) -> [u32; N] {
    let starts: [usize; N] =
        starts.try_into().expect("the call has a starting bit for each bitmap of its entry");
    starts.map(narrow)
}

/// A starting bit, or how many columns there are, as the byte entries take it.
fn narrow(number: usize) -> u32 {
    number.try_into().expect("a number that a byte entry takes")
}

/// The output slices of a call, as many as its entry has.
pub fn outputs<'a, const N: usize>(slices: &'a mut [&mut [u8]]) -> [&'a mut [u8]; N] {
    assert_eq!(slices.len(), N, "the call has the output slices of its entry");
    let mut slices = slices.iter_mut();
    std::array::from_fn(|_| &mut **slices.next().expect("as many as were counted"))
}

/// The function of an entry that the library must have.
fn present<F>(function: Option<F>) -> F {
    function.expect("only entries that the library has are called")
}

impl Library {
    #[cfg(not(mock))]
    pub const EMPTY: Library = Library {
        list: None,
        any_value: None,
        element: None,
        lists: None,
        list_with: None,
        list_repeat: None,
        recipe: None,
        typed: None,
        large: None,
        grades: None,
        views: None,
        windows: None,
        hashed: None,
    };

    pub fn has(&self, entry: Entry) -> bool {
        match entry.kind {
            _ if entry.is_wide() => self.large.is_some(),
            Kind::List(_) => self.list.is_some(),
            Kind::AnyValue => self.any_value.is_some(),
            Kind::Element => self.element.is_some(),
            Kind::Lists(_) => self.lists.is_some(),
            Kind::ListWith(_) => self.list_with.is_some(),
            Kind::ListRepeat => self.list_repeat.is_some(),
            Kind::Recipe { .. } => self.recipe.is_some(),
            Kind::ImportView | Kind::ExportView => self.views.is_some(),
            Kind::RecipeRows { .. } => self.windows.is_some(),
            Kind::DistinctHashed | Kind::ListsHashed(_) => self.hashed.is_some(),
        }
    }

    /// The operations that the library has an entry for.
    pub fn operations(&self) -> impl Iterator<Item = Entry> + use<'_> {
        Width::ALL.into_iter().flat_map(Entry::all).filter(|entry| self.has(*entry))
    }

    /// Names the operations that the library has no entry for, if there are any, with a work area or
    /// without, or recipes, over all their rows or some, ListView columns or grades.
    pub fn print_absent(&self) {
        let of_width = |width: Width| Entry::all(width).chain([Entry::recipes(width)]);
        let entries = Width::ALL.into_iter().flat_map(of_width);
        let entries = entries.chain([Entry::IMPORT, Entry::EXPORT, Entry::RECIPE_ROWS]);
        let entries = entries.chain(Entry::HASHED);
        let absent = entries.filter(|entry| !self.has(*entry)).map(Entry::name);
        let absent: Vec<&str> = absent.chain(self.grades.is_none().then_some("grade")).collect();
        if !absent.is_empty() {
            println!("not run, no entry in the archive: {}", absent.join(", "));
        }
    }

    /// Calls a byte entry.
    pub fn call(
        &self,
        entry: Entry,
        lent: &[&[u8]],
        starts: &[usize],
        results: &mut [&mut [u8]],
        counts: &mut [u8],
    ) -> u32 {
        match entry.kind {
            Kind::List(code) => {
                present(self.list)(code, inputs(lent), bits(starts), outputs(results), counts)
            }
            Kind::AnyValue => {
                present(self.any_value)(inputs(lent), bits(starts), outputs(results), counts)
            }
            Kind::Element => {
                present(self.element)(inputs(lent), bits(starts), outputs(results), counts)
            }
            Kind::Lists(code) => {
                present(self.lists)(code, inputs(lent), bits(starts), outputs(results), counts)
            }
            Kind::ListWith(code) => {
                present(self.list_with)(code, inputs(lent), bits(starts), outputs(results), counts)
            }
            Kind::ListRepeat => {
                present(self.list_repeat)(inputs(lent), bits(starts), outputs(results), counts)
            }
            Kind::Recipe { station, columns } => {
                let (columns, lent, bits) = (narrow(columns), inputs(lent), bits(starts));
                present(self.recipe)(station, columns, lent, bits, outputs(results), counts)
            }
            Kind::ImportView | Kind::ExportView => panic!("views have no entry over bytes"),
            Kind::RecipeRows { .. } => panic!("windows have no entry over bytes"),
            Kind::DistinctHashed | Kind::ListsHashed(_) => panic!("areas have none over bytes"),
        }
    }
}

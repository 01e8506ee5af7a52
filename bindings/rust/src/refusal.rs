use core::fmt;

/// Why a call was refused. A refused call changes no output.
///
/// They are tested in the order 15, 10, 13, 1, 2, 3, 16, 14, then those of the rows, where the first
/// bad row decides, and 9 last; where grades are asked for, 12 comes before all of them, and right after
/// it 9 for the grades.
#[derive(Clone, Copy, Debug, PartialEq, Eq, Hash)]
#[non_exhaustive]
pub enum Refusal {
    /// 1: the first offset is negative, one falls, or the last lies past the values.
    BadOffsets,
    /// 2: a bitmap that has bytes is too short, from its starting bit on, for its rows, or for all
    /// the values lent.
    ShortBitmap,
    /// 3: two columns have different numbers of rows, the offsets and sizes of views different numbers,
    /// or a recipe's arguments are not columns times rows. The limit of replace and remove may also have one row, used for all.
    RowCountsDiffer,
    /// 4: an index or a bound does not fit 32 signed bits; never of large lists.
    WideIndex,
    /// 5: the stride is 0 where both bounds fall in the row.
    ZeroStride,
    /// 6: the stride does not fit 32 signed bits where its direction suits the bounds; never of large
    /// lists.
    WideStride,
    /// 7: resize has a negative count.
    NegativeCount,
    /// 8: the result would have more than 2147483647 elements or outer lists, or of large lists more
    /// than these may have.
    TooMany,
    /// 9: an output, or a tray that a step writes, is too short for the result, or the grades for the rows.
    ShortOutput,
    /// 10: the recipe has over 32 steps or eight columns, or it uses a column that is not there.
    MalformedRecipe,
    /// 11: the offset of a view, its size or their sum is below 0 or over the number of values.
    ViewOutside,
    /// 12: the run that gives a row grade 2 is to have at least 0 elements.
    ZeroRun,
    /// 13: a starting bit is over 7, also beside a bitmap of no bytes.
    BadStartingBit,
    /// 14: a work area has fewer slots than twice the elements of the longest valid row, or of the
    /// longest pair of rows that are valid on both sides.
    ShortArea,
    /// 15: the station is over 15; the call counts for nobody.
    NoSuchStation,
    /// 16: the rows to be looked at begin behind their end, or end behind the last row.
    RowsOutside,
    /// A number that this version of the crate has no name for.
    Other(u32),
}

impl Refusal {
    /// The refusal of a number that an entry returned.
    pub(crate) fn of(number: u32) -> Refusal {
        match number {
            1 => Refusal::BadOffsets,
            2 => Refusal::ShortBitmap,
            3 => Refusal::RowCountsDiffer,
            4 => Refusal::WideIndex,
            5 => Refusal::ZeroStride,
            6 => Refusal::WideStride,
            7 => Refusal::NegativeCount,
            8 => Refusal::TooMany,
            9 => Refusal::ShortOutput,
            10 => Refusal::MalformedRecipe,
            11 => Refusal::ViewOutside,
            12 => Refusal::ZeroRun,
            13 => Refusal::BadStartingBit,
            14 => Refusal::ShortArea,
            15 => Refusal::NoSuchStation,
            16 => Refusal::RowsOutside,
            // 100, a fault of the call itself, cannot come from here: the crate passes only codes
            // that the entries serve, and all places for counts, lengths and tally. An archive that
            // gives it all the same is another version's, and the call has changed no output.
            other => Refusal::Other(other),
        }
    }

    /// The refusal's number, as the C entries return it.
    ///
    /// ```
    /// assert_eq!(duthlan::Refusal::ZeroStride.number(), 5);
    /// ```
    pub fn number(self) -> u32 {
        match self {
            Refusal::BadOffsets => 1,
            Refusal::ShortBitmap => 2,
            Refusal::RowCountsDiffer => 3,
            Refusal::WideIndex => 4,
            Refusal::ZeroStride => 5,
            Refusal::WideStride => 6,
            Refusal::NegativeCount => 7,
            Refusal::TooMany => 8,
            Refusal::ShortOutput => 9,
            Refusal::MalformedRecipe => 10,
            Refusal::ViewOutside => 11,
            Refusal::ZeroRun => 12,
            Refusal::BadStartingBit => 13,
            Refusal::ShortArea => 14,
            Refusal::NoSuchStation => 15,
            Refusal::RowsOutside => 16,
            Refusal::Other(number) => number,
        }
    }
}

impl fmt::Display for Refusal {
    fn fmt(&self, f: &mut fmt::Formatter<'_>) -> fmt::Result {
        f.write_str(match self {
            Refusal::BadOffsets => "offsets that begin below 0, fall, or end past the values",
            Refusal::ShortBitmap => "a bitmap too short for its rows, or for all the values lent",
            Refusal::RowCountsDiffer => "columns that differ in their number of rows",
            Refusal::WideIndex => "an index or a bound that does not fit 32 signed bits",
            Refusal::ZeroStride => "a stride of 0 where both bounds fall in the row",
            Refusal::WideStride => "a stride that does not fit 32 signed bits",
            Refusal::NegativeCount => "a negative count",
            Refusal::TooMany => "a result of more elements or lists than its offsets may count",
            Refusal::ShortOutput => "an output or a tray too short for the result",
            Refusal::MalformedRecipe => "a malformed recipe",
            Refusal::ViewOutside => "a view that lies outside the values",
            Refusal::ZeroRun => "a run of at least 0 elements to grade by",
            Refusal::BadStartingBit => "a starting bit over 7",
            Refusal::ShortArea => {
                "a work area of fewer slots than twice the longest row, or pair of rows"
            }
            Refusal::NoSuchStation => "a station over 15",
            Refusal::RowsOutside => {
                "rows to be looked at that begin behind their end, or end behind the last row"
            }
            Refusal::Other(_) => "a number that has no name here",
        })
    }
}

#[cfg(feature = "std")]
impl std::error::Error for Refusal {}

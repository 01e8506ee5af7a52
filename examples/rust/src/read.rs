//! Reading rows, values and recipes from text. What cannot be read is said in a sentence.

use duthlan::owned::Row;
use duthlan::Recipe;

pub const MOST_ROWS: usize = 1024;
pub const MOST_ELEMENTS: usize = 16384;
pub const MOST_BYTES: usize = 65536;
const MOST_STEPS: usize = 64;
const MOST_COLUMNS: usize = 16;

/// A text that is being read, and what sentences call it.
pub struct Text<'a> {
    name: &'a str,
    bytes: &'a [u8],
    at: usize,
}

fn is_letter(c: u8) -> bool {
    c.is_ascii_lowercase() || c == b'_'
}

fn is_space(c: u8) -> bool {
    matches!(c, b' ' | b'\t' | b'\n' | b'\r')
}

impl<'a> Text<'a> {
    pub fn new(name: &'a str, bytes: &'a [u8]) -> Text<'a> {
        Text { name, bytes, at: 0 }
    }

    fn stop_at<T>(&self, at: usize, sentence: &str) -> Result<T, String> {
        Err(format!("{}, character {}: {sentence}", self.name, at + 1))
    }

    fn next(&self) -> Option<u8> {
        self.bytes.get(self.at).copied()
    }

    /// Takes characters while they are of a kind.
    fn take_while(&mut self, kind: impl Fn(u8) -> bool) -> &'a [u8] {
        let rest = &self.bytes[self.at..];
        let length = rest.iter().position(|&c| !kind(c)).unwrap_or(rest.len());
        self.at += length;
        &rest[..length]
    }

    fn skip_spaces(&mut self) {
        self.take_while(is_space);
    }

    /// Takes a character, if it comes next.
    fn take(&mut self, c: u8) -> bool {
        self.skip_spaces();
        let comes = self.next() == Some(c);
        self.at += usize::from(comes);
        comes
    }

    /// Takes a word, if it comes next.
    fn take_word(&mut self, word: &str) -> bool {
        self.skip_spaces();
        let start = self.at;
        let comes = self.take_while(is_letter) == word.as_bytes();
        if !comes {
            self.at = start;
        }
        comes
    }

    /// Reads a number or null.
    fn value(&mut self) -> Result<Option<i64>, String> {
        if self.take_word("null") {
            return Ok(None);
        }
        let start = self.at;
        self.take(b'-');
        if self.take_while(|c| c.is_ascii_digit()).is_empty() {
            return self.stop_at(start, "expected a number or null");
        }
        let number = String::from_utf8_lossy(&self.bytes[start..self.at]);
        match number.parse() {
            Ok(number) => Ok(Some(number)),
            Err(_) => self.stop_at(start, "the number does not fit 64 signed bits"),
        }
    }

    /// Reads values between commas, behind those that there are, up to `most`.
    fn values(&mut self, values: &mut Vec<Option<i64>>, most: usize) -> Result<(), String> {
        loop {
            let value = self.value()?;
            if values.len() == most {
                return Err(format!("{}: more than {most} values", self.name));
            }
            values.push(value);
            if !self.take(b',') {
                return Ok(());
            }
        }
    }

    /// Reads values between commas, up to the end; one value is used for all rows.
    fn column(
        &mut self,
        values: &mut Vec<Option<i64>>,
        most: usize,
        rows: usize,
    ) -> Result<(), String> {
        let first = values.len();
        self.values(values, most)?;
        if self.next().is_some() {
            return self.stop_at(self.at, "expected a comma or the end");
        }
        if values.len() - first == 1 {
            values.resize(first + rows, values[first]);
        }
        Ok(())
    }
}

/// Reads an argument column, one value for all rows or one for each.
pub fn read_values(mut text: Text, rows: usize) -> Result<Vec<Option<i64>>, String> {
    let mut values = Vec::new();
    text.column(&mut values, MOST_ROWS, rows)?;
    Ok(values)
}

/// Reads rows, up to the end.
pub fn read_rows(mut text: Text) -> Result<Vec<Row>, String> {
    let (mut rows, mut elements) = (Vec::new(), Vec::new());
    text.skip_spaces();
    while text.next().is_some() {
        if rows.len() == MOST_ROWS {
            return Err(format!("{}: more than {MOST_ROWS} rows", text.name));
        }
        let start = elements.len();
        if text.take_word("null") {
            rows.push(None);
        } else if !text.take(b'[') {
            return text.stop_at(text.at, "expected [ or null");
        } else {
            if !text.take(b']') {
                text.values(&mut elements, MOST_ELEMENTS)?;
                if !text.take(b']') {
                    return text.stop_at(text.at, "expected a comma or ]");
                }
            }
            rows.push(Some(elements[start..].to_vec()));
        }
        text.skip_spaces();
    }
    Ok(rows)
}

/// The steps, and how many arguments each takes at most.
const STEPS: [(&str, usize); 10] = [
    ("reverse", 0),
    ("distinct", 0),
    ("pop_front", 0),
    ("pop_back", 0),
    ("slice", 3),
    ("resize", 2),
    ("replace", 3),
    ("remove", 2),
    ("union", 0),
    ("intersect", 0),
];

/// A recipe with its argument columns, one after another. Arguments of equal text share a column.
#[derive(Default)]
pub struct Steps<'a> {
    pub recipe: Recipe,
    pub arguments: Vec<Option<i64>>,
    pub columns: Vec<&'a [u8]>,
    count: usize,
}

impl<'a> Steps<'a> {
    /// Reads an argument of a step, up to a space or a semicolon, and gives the number of its column.
    fn read_column(&mut self, text: &mut Text<'a>, rows: usize) -> Result<u32, String> {
        let (start, first) = (text.at, self.arguments.len());
        let argument = text.take_while(|c| !is_space(c) && c != b';');
        let number = self.columns.iter().position(|column| *column == argument);
        if let Some(number) = number {
            return Ok(number as u32);
        }
        if self.columns.len() == MOST_COLUMNS {
            return Err(format!("{}: more than {MOST_COLUMNS} different arguments", text.name));
        }
        let mut column = Text { name: text.name, bytes: &text.bytes[..text.at], at: start };
        column.column(&mut self.arguments, MOST_COLUMNS * MOST_ROWS, rows)?;
        if self.arguments.len() - first != rows {
            return text.stop_at(start, "expected one value, or one for each row");
        }
        self.columns.push(argument);
        Ok(self.columns.len() as u32 - 1)
    }

    /// Reads a step with its arguments.
    fn read(&mut self, text: &mut Text<'a>, rows: usize, has_second: bool) -> Result<(), String> {
        text.skip_spaces();
        let start = text.at;
        let Some(&(name, most)) = STEPS.iter().find(|(name, _)| text.take_word(name)) else {
            return text.stop_at(start, "expected the name of a step");
        };
        if self.count == MOST_STEPS {
            return Err(format!("{}: more than {MOST_STEPS} steps", text.name));
        }
        self.count += 1;
        if matches!(name, "union" | "intersect") && !has_second {
            return text.stop_at(start, "this step needs second rows");
        }
        let mut columns = Vec::new();
        text.skip_spaces();
        while text.next().is_some_and(|c| c != b';') {
            if columns.len() == most {
                return text.stop_at(text.at, "too many arguments");
            }
            columns.push(self.read_column(text, rows)?);
            text.skip_spaces();
        }
        let recipe = self.recipe;
        self.recipe = match (name, columns[..].as_ref()) {
            ("reverse", []) => recipe.reverse(),
            ("distinct", []) => recipe.distinct(),
            ("pop_front", []) => recipe.pop_front(),
            ("pop_back", []) => recipe.pop_back(),
            ("slice", &[from, to]) => recipe.slice_without_stride(from, to),
            ("slice", &[from, to, stride]) => recipe.slice(from, to, stride),
            ("resize", &[count, fill]) => recipe.resize(count, fill),
            ("replace", &[from, to, limit]) => recipe.replace(from, to, limit),
            ("remove", &[element, limit]) => recipe.remove(element, limit),
            ("union", []) => recipe.union(),
            ("intersect", []) => recipe.intersect(),
            _ => return text.stop_at(start, "too few arguments"),
        };
        Ok(())
    }
}

/// Reads steps between semicolons, or none.
pub fn read_steps(mut text: Text, rows: usize, has_second: bool) -> Result<Steps, String> {
    let mut steps = Steps::default();
    text.skip_spaces();
    if text.next().is_some() {
        steps.read(&mut text, rows, has_second)?;
        while text.take(b';') {
            steps.read(&mut text, rows, has_second)?;
        }
    }
    Ok(steps)
}

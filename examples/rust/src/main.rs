//! rows: runs an operation, or a recipe, on rows that are typed in, and prints the rows that it makes.
//! `rows --help` says how to call it. It behaves as the C example does, room for results included.

mod read;

use duthlan::owned::{ListBuf, RepeatBuf, Row, ValuesBuf};
use duthlan::{List, ListCounts, ListOut, RecipeInputs, Refusal, Tally, Trays, Values};
use read::{read_rows, read_steps, read_values, Text, MOST_BYTES, MOST_ELEMENTS, MOST_ROWS};
use std::env;
use std::io::{self, Read};
use std::process::ExitCode;

const USAGE: &str = "\
rows OPERATION [--NAME VALUES].. [--counts] [ROWS]..
runs an operation on rows and prints the rows that it makes

  rows reverse '[12, -3, null] null [] [7, 7, 9]'
  rows slice --from 2 --to -1 '[10, 20, 30] [7]'
  rows element --index '1, null' '[10, 20, 30] [7]'
  rows union '[2, 1, 2]' '[1, 5, null]'
  rows recipe 'slice 2 -1; reverse; union' '[10, 20, 30]' '[7]'

reverse   distinct   pop_front   pop_back   any_value
slice --from --to [--stride]   resize --count [--fill]   replace --from --to --limit
remove --element --limit   element --index   list_repeat --count
union ROWS ROWS   intersect ROWS ROWS
recipe [--station] STEPS ROWS [ROWS]
  steps stand between semicolons, with their arguments: reverse; distinct; pop_front; pop_back;
  slice FROM TO [STRIDE]; resize COUNT FILL; replace FROM TO LIMIT; remove ELEMENT LIMIT;
  union; intersect, with the second ROWS

VALUES are one for all rows, or one a row between commas; null is a value. --counts prints the counts
of the result below it. ROWS that are - or left out are read from standard input. The status is 1
where the call is refused and 2 where the input cannot be read.
";

/// An operation's options, of which the first `needed` must be given, and how many texts it takes at
/// least and at most: ROWS, and a recipe's steps.
struct Operation {
    name: &'static str,
    options: &'static [&'static str],
    needed: usize,
    least: usize,
    most: usize,
}

const fn operation(
    name: &'static str,
    options: &'static [&'static str],
    needed: usize,
    least: usize,
    most: usize,
) -> Operation {
    Operation { name, options, needed, least, most }
}

const OPERATIONS: [Operation; 14] = [
    operation("reverse", &[], 0, 0, 1),
    operation("distinct", &[], 0, 0, 1),
    operation("pop_front", &[], 0, 0, 1),
    operation("pop_back", &[], 0, 0, 1),
    operation("slice", &["--from", "--to", "--stride"], 2, 0, 1),
    operation("resize", &["--count", "--fill"], 1, 0, 1),
    operation("replace", &["--from", "--to", "--limit"], 3, 0, 1),
    operation("remove", &["--element", "--limit"], 2, 0, 1),
    operation("union", &[], 0, 2, 2),
    operation("intersect", &[], 0, 2, 2),
    operation("any_value", &[], 0, 0, 1),
    operation("element", &["--index"], 1, 0, 1),
    operation("list_repeat", &["--count"], 1, 0, 1),
    operation("recipe", &["--station"], 0, 1, 3),
];

/// Why there are no rows to print: the call was refused, or the input cannot be read.
enum Failure {
    Refused(Refusal),
    Input(String),
}

impl From<Refusal> for Failure {
    fn from(refusal: Refusal) -> Failure {
        Failure::Refused(refusal)
    }
}

impl From<String> for Failure {
    fn from(sentence: String) -> Failure {
        Failure::Input(sentence)
    }
}

/// What the command line says: the operation, the VALUES of its options, and its texts.
struct Call {
    operation: &'static Operation,
    options: Vec<Option<String>>,
    texts: Vec<String>,
    wants_counts: bool,
}

fn read_command(mut words: impl Iterator<Item = String>) -> Result<Call, String> {
    let name = words.next().unwrap_or_default();
    let Some(operation) = OPERATIONS.iter().find(|operation| operation.name == name) else {
        return Err(format!("no operation is named {name}; rows --help lists them"));
    };
    let options = vec![None; operation.options.len()];
    let mut call = Call { operation, options, texts: Vec::new(), wants_counts: false };
    while let Some(word) = words.next() {
        if word == "--counts" {
            call.wants_counts = true;
        } else if word.starts_with("--") {
            let place = operation.options.iter().position(|option| *option == word);
            let place = place.ok_or_else(|| format!("{name} takes no {word}"))?;
            if call.options[place].is_some() {
                return Err(format!("{word} stands twice"));
            }
            call.options[place] =
                Some(words.next().ok_or_else(|| format!("{word} needs a value"))?);
        } else if call.texts.len() == operation.most {
            return Err(format!("{name} takes no more than what stands before {word}"));
        } else {
            call.texts.push(word);
        }
    }
    let mut needed = call.options.iter().zip(operation.options).take(operation.needed);
    if let Some((_, option)) = needed.find(|(value, _)| value.is_none()) {
        return Err(format!("{name} needs {option}"));
    }
    if call.texts.len() < operation.least {
        return Err(format!("{name} needs more; rows --help says what"));
    }
    Ok(call)
}

/// The texts of the call; standard input, which can be read once, for those that are - or not there.
#[derive(Default)]
struct Input {
    is_read: bool,
}

impl Input {
    fn text(&mut self, argument: Option<&String>) -> Result<Vec<u8>, String> {
        if let Some(argument) = argument.filter(|argument| *argument != "-") {
            return Ok(argument.as_bytes().to_vec());
        }
        if self.is_read {
            return Err("standard input can be read once".to_string());
        }
        self.is_read = true;
        let mut bytes = Vec::new();
        let most = MOST_BYTES as u64 + 1;
        io::stdin().take(most).read_to_end(&mut bytes).map_err(|error| error.to_string())?;
        if bytes.len() > MOST_BYTES {
            return Err(format!("standard input: more than {MOST_BYTES} bytes"));
        }
        Ok(bytes)
    }
}

fn show_value(value: Option<i64>) -> String {
    value.map_or("null".to_string(), |value| value.to_string())
}

fn show_row(row: &Row) -> String {
    let Some(row) = row else {
        return "null".to_string();
    };
    format!("[{}]", row.iter().copied().map(show_value).collect::<Vec<_>>().join(", "))
}

fn show_outer(row: &Option<Vec<Row>>) -> String {
    let Some(row) = row else {
        return "null".to_string();
    };
    format!("[{}]", row.iter().map(show_row).collect::<Vec<_>>().join(", "))
}

/// What an operation made, with its counts.
struct Made {
    rows: Vec<String>,
    counts: String,
}

/// What a call works on. An argument is `None` where its option was not given.
struct Inputs<'a> {
    list: List<'a>,
    second: Option<List<'a>>,
    arguments: Vec<Option<Values<'a>>>,
}

/// Runs a recipe, given by its steps.
fn make_by_recipe(call: &Call, inputs: &Inputs, out: &mut ListOut) -> Result<ListCounts, Failure> {
    let station = match inputs.arguments[0] {
        None => 0,
        Some(station) => match station.to_vec()?[..] {
            [Some(number)] => u32::try_from(number).ok(),
            _ => None,
        }
        .ok_or_else(|| "--station: expected one number from 0 to 4294967295".to_string())?,
    };
    let text = Text::new("recipe", call.texts[0].as_bytes());
    let steps = read_steps(text, inputs.list.row_count(), inputs.second.is_some())?;
    let arguments = ValuesBuf::from_values(&steps.arguments);
    let recipe_inputs = RecipeInputs {
        list: inputs.list,
        second: inputs.second.unwrap_or(inputs.list),
        columns: steps.columns.len(),
        arguments: arguments.values(),
    };
    let mut one = ListBuf::with_room(MOST_ROWS, MOST_ELEMENTS);
    let mut two = one.clone();
    let mut trays = Trays { one: one.out(), two: two.out() };
    let mut tally = Tally::default();
    Ok(duthlan::run_recipe(station, steps.recipe, recipe_inputs, &mut trays, out, &mut tally)?)
}

/// Runs an operation that makes lists.
fn make_lists(call: &Call, inputs: &Inputs) -> Result<Made, Failure> {
    let mut room = ListBuf::with_room(MOST_ROWS, MOST_ELEMENTS);
    let mut out = room.out();
    let list = inputs.list;
    let second = inputs.second.unwrap_or_default();
    // An option that must be given is there; Values::default() stands for none.
    let argument = |k: usize| inputs.arguments[k].unwrap_or_default();
    let counts = match call.operation.name {
        "reverse" => duthlan::reverse(list, &mut out)?,
        "distinct" => duthlan::distinct(list, &mut out)?,
        "pop_front" => duthlan::pop_front(list, &mut out)?,
        "pop_back" => duthlan::pop_back(list, &mut out)?,
        "slice" => duthlan::slice(list, argument(0), argument(1), inputs.arguments[2], &mut out)?,
        "resize" => duthlan::resize(list, argument(0), inputs.arguments[1], &mut out)?,
        "replace" => duthlan::replace(list, argument(0), argument(1), argument(2), &mut out)?,
        "remove" => duthlan::remove(list, argument(0), argument(1), &mut out)?,
        "union" => duthlan::union(list, second, &mut out)?,
        "intersect" => duthlan::intersect(list, second, &mut out)?,
        _ => make_by_recipe(call, inputs, &mut out)?,
    };
    let ListCounts { rows, elements, null_rows, null_elements } = counts;
    Ok(Made {
        rows: out.written(&counts).to_rows()?.iter().map(show_row).collect(),
        counts: format!(
            "rows {rows}, elements {elements}, null rows {null_rows}, null elements {null_elements}"
        ),
    })
}

/// Runs an operation that makes a value a row.
fn make_values(call: &Call, inputs: &Inputs) -> Result<Made, Failure> {
    let mut room = ValuesBuf::with_room(MOST_ROWS);
    let mut out = room.out();
    let counts = match call.operation.name {
        "element" => {
            duthlan::element(inputs.list, inputs.arguments[0].unwrap_or_default(), &mut out)?
        }
        _ => duthlan::any_value(inputs.list, &mut out)?,
    };
    Ok(Made {
        rows: out.written(&counts).to_vec()?.into_iter().map(show_value).collect(),
        counts: format!("rows {}, null rows {}", counts.rows, counts.null_rows),
    })
}

/// Runs list-repeat.
fn make_nested(inputs: &Inputs) -> Result<Made, Failure> {
    let mut room = RepeatBuf::with_room(MOST_ROWS, MOST_ELEMENTS, MOST_ELEMENTS);
    let mut out = room.out();
    let times = inputs.arguments[0].unwrap_or_default();
    let counts = duthlan::list_repeat(inputs.list, times, &mut out)?;
    Ok(Made {
        rows: out.written(&counts).to_rows()?.iter().map(show_outer).collect(),
        counts: format!(
            "rows {}, elements {}, null rows {}, null elements {}, inner rows {}, null inner rows {}",
            counts.rows,
            counts.elements,
            counts.null_rows,
            counts.null_elements,
            counts.inner_rows,
            counts.null_inner_rows
        ),
    })
}

fn run(call: &Call) -> Result<Made, Failure> {
    let is_recipe = call.operation.name == "recipe";
    let steps = usize::from(is_recipe); // the first text of a recipe is its steps
    let mut input = Input::default();
    let first = read_rows(Text::new("rows", &input.text(call.texts.get(steps))?))?;
    let second = match call.texts.get(steps + 1) {
        None => None,
        text => Some(read_rows(Text::new("second rows", &input.text(text)?))?),
    };
    let rows = if is_recipe { 1 } else { first.len() }; // a station is one number
    let mut arguments = Vec::new();
    for (name, option) in call.operation.options.iter().zip(&call.options) {
        let values = match option {
            None => None,
            text => Some(read_values(Text::new(name, &input.text(text.as_ref())?), rows)?),
        };
        arguments.push(values.map(|values| ValuesBuf::from_values(&values)));
    }
    let first = ListBuf::from_rows(&first)?;
    let second = second.map(|rows| ListBuf::from_rows(&rows)).transpose()?;
    let inputs = Inputs {
        list: first.list(),
        second: second.as_ref().map(ListBuf::list),
        arguments: arguments.iter().map(|column| column.as_ref().map(ValuesBuf::values)).collect(),
    };
    match call.operation.name {
        "any_value" | "element" => make_values(call, &inputs),
        "list_repeat" => make_nested(&inputs),
        _ => make_lists(call, &inputs),
    }
}

fn main() -> ExitCode {
    let mut words =
        env::args_os().skip(1).map(|word| word.to_string_lossy().into_owned()).peekable();
    match words.peek().map(String::as_str) {
        None => {
            eprint!("{USAGE}");
            return ExitCode::from(2);
        }
        Some("--help") => {
            print!("{USAGE}");
            return ExitCode::SUCCESS;
        }
        Some(_) => {}
    }
    let made = read_command(words).map_err(Failure::from).and_then(|call| Ok((run(&call)?, call)));
    match made {
        Ok((made, call)) => {
            println!("{}", made.rows.join(" "));
            if call.wants_counts {
                println!("{}", made.counts);
            }
            ExitCode::SUCCESS
        }
        Err(Failure::Refused(refusal)) => {
            eprintln!("refused ({}): {refusal}", refusal.number());
            ExitCode::from(1)
        }
        Err(Failure::Input(sentence)) => {
            eprintln!("{sentence}");
            ExitCode::from(2)
        }
    }
}

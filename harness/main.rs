//! The test harness: calls the port through its C entries, over bytes and typed, and compares every
//! call with an independent reading of document 01 and of the notes of document 02 that change it.
//!
//!     harness                        the gate's amount
//!     harness --calls N --seed S     N random calls of each width beside the exhaustive ones
//!     harness --group NAME           one group alone, with its calls of the whole run
//!     harness --operation NAME       the groups of one operation
//!     harness --typed-groups         the groups for what typed calls alone meet
//!     harness --lending              the groups for how much to lend
//!     harness --large                the groups of large lists
//!     harness --bytes | --typed      the byte entries alone, or the typed ones
//!     harness --plain                the plain Rust instead of the port
//!     harness --decoded              the plain Rust that decodes inside instead of the port
//!     harness --alone                not the plain Rust beside the port
//!     harness --stop                 ends at the first difference
//!     harness --trace                names each call before it is made
//!     harness --apart                lends each slice as an allocation of its own, for memcheck
//!     harness groups | bench | example
//!     harness bench NAME             the benchmark of one operation, as 'union' or 'union hashed'
//!     harness bench large NAME       its tables of large columns alone, or of all without a name
//!     harness bench plot FILE NAME   its plot, or that of all without a name; bench alone writes
//!                                    docs/speed.svg too, where there is a folder docs
//!     harness bench count NAME LENGTH NULLS CALLS
//!                                    makes one call so often, for harness/instructions
//!
//! An operation is added in model.rs (its argument columns, its refusals, what a row becomes),
//! entry.rs (its line), plain.rs, coverage.rs (what its rows must meet), worked.rs and defects.rs
//! (wrong versions); the groups then run over it as they stand. A new kind of argument has its
//! boundary numbers in generate.rs; a new entry its slices in entry.rs, library.rs and port.rs, and
//! its typed form in typed.rs, typed_port.rs, plain.rs and mock_typed.rs. The byte entries that the
//! archive has are listed at the end of port.rs: the groups of the others are not run, but for the
//! plain Rust.
//!
//! Recipes are no operation: they are read in model.rs, made in recipe_generate.rs, and have their
//! groups in recipe_groups.rs and recipe_lengths.rs, what these must reach in recipe_coverage.rs,
//! and their wrong versions in mock_recipe.rs; `--operation recipe` runs their groups.
//!
//! Pairs of layouts that show the same rows are in pairs.rs, for operations and for recipes; columns
//! with no offsets are in no_offsets.rs; strided slices, whose places are counted by stepping, are
//! in strides.rs; the stations of a tally are in stations.rs, and bitmaps from the middle of a byte
//! in starts.rs.
//!
//! How much to lend is read in lending.rs and has its groups in lending_groups.rs; beside these, the
//! groups named "asked" ask it for the calls of other groups, without making them.
//!
//! Every call of these groups is made over bytes and typed. What typed calls alone meet is in
//! typed_groups.rs and, for large columns, in large.rs.
//!
//! An entry has a width: lists have offsets of 32 bits, large lists of 64. The groups run once for
//! each, over the one reading in model.rs; those of large lists, which have typed entries alone, are
//! named "large ..", and what they alone meet is in wide.rs.
//!
//! ListView columns have typed entries alone, too. They are read in views.rs; import has its groups
//! in view_groups.rs and what these must reach in view_coverage.rs, export those of an operation on
//! one list; the wrong versions of both are in mock_views.rs. `--operation 'import view'` and
//! `--operation 'export view'` run their groups.
//!
//! A recipe over some of its rows has a typed entry alone, too. It is read in windows.rs, has its groups
//! in window_groups.rs and what these must reach in window_coverage.rs; its wrong versions are in
//! mock_windows.rs. `--operation 'recipe rows'` runs its groups.
//!
//! Grading has typed entries alone, for a column and for a recipe. Both are read in grades.rs, and
//! graded calls are made there; their groups are in grade_groups.rs, beside which columns of export
//! and recipes of other groups are graded. What these must reach is in grade_coverage.rs, the wrong
//! versions are in mock_grades.rs. `--operation grade` and `--operation 'grade recipe'` run them.
//!
//! Distinct, union and intersect with a work area are entries of their own, typed alone. What they alone
//! refuse is read in hashed.rs; they have the groups of their operation and those in hash_groups.rs, what
//! these must reach is in hash_coverage.rs, and the wrong versions are in mock_hashed.rs.
//! `--operation 'union hashed'` runs the groups of one.

mod bench;
mod compare;
mod coverage;
mod decoded;
#[cfg(mock)]
mod defects;
mod entry;
mod example;
mod exhaustive;
mod generate;
mod grade_coverage;
mod grade_groups;
#[cfg(not(mock))]
mod grade_port;
mod grades;
mod groups;
mod hash_coverage;
mod hash_groups;
mod hashed;
mod large;
mod lending;
mod lending_groups;
mod library;
#[cfg(mock)]
mod mock;
#[cfg(mock)]
mod mock_grades;
#[cfg(mock)]
mod mock_hashed;
#[cfg(mock)]
mod mock_lending;
#[cfg(mock)]
mod mock_recipe;
#[cfg(mock)]
mod mock_rows;
#[cfg(mock)]
mod mock_typed;
#[cfg(mock)]
mod mock_views;
#[cfg(mock)]
mod mock_windows;
mod model;
mod no_offsets;
mod numbers;
mod pairs;
mod plain;
mod plain_grades;
mod plot;
mod port;
mod recipe_coverage;
mod recipe_generate;
mod recipe_groups;
mod recipe_lengths;
mod rng;
mod starts;
mod stations;
mod strides;
mod typed;
mod typed_groups;
#[cfg(not(mock))]
mod typed_port;
mod view_coverage;
mod view_groups;
mod views;
mod wide;
mod window_coverage;
mod window_groups;
mod windows;
mod worked;

use compare::{Checker, Manner};
use coverage::Coverage;
use entry::Route;
use groups::Group;
use library::Library;
use std::fmt::{self, Display, Formatter};
use std::process::ExitCode;

const DEFAULT_CALLS: u64 = 400_000;
const DEFAULT_SEED: u64 = 1;

struct Options {
    calls: u64,
    seed: u64,
    group: Option<String>,
    operation: Option<String>,
    /// Whether the groups for what typed calls alone meet are wanted alone.
    typed_groups: bool,
    /// Whether the groups for how much to lend are.
    lending: bool,
    /// Whether the groups of large lists are.
    large: bool,
    library: &'static Library,
    routes: Vec<Route>,
    alone: bool,
    stop: bool,
    trace: bool,
    apart: bool,
}

fn number(text: Option<String>, option: &str) -> Result<u64, String> {
    let text = text.ok_or(format!("{option} wants a number"))?;
    text.parse().map_err(|_| format!("{option} wants a number, not '{text}'"))
}

fn parse(mut words: impl Iterator<Item = String>) -> Result<Options, String> {
    let (calls, seed) = (DEFAULT_CALLS, DEFAULT_SEED);
    let (group, operation) = (None, None);
    let (library, routes) = (&port::LIBRARY, vec![Route::Bytes, Route::Typed]);
    let (typed_groups, lending, large) = (false, false, false);
    let (alone, stop, trace, apart) = (false, false, false, false);
    let mut options = Options {
        calls,
        seed,
        group,
        operation,
        typed_groups,
        lending,
        large,
        library,
        routes,
        alone,
        stop,
        trace,
        apart,
    };
    while let Some(word) = words.next() {
        match word.as_str() {
            "--calls" => options.calls = number(words.next(), "--calls")?,
            "--seed" => options.seed = number(words.next(), "--seed")?,
            "--group" => options.group = Some(words.next().ok_or("--group wants a name")?),
            "--operation" => {
                options.operation = Some(words.next().ok_or("--operation wants a name")?);
            }
            "--plain" => options.library = &plain::LIBRARY,
            "--decoded" => options.library = &decoded::LIBRARY,
            "--typed-groups" => options.typed_groups = true,
            "--lending" => options.lending = true,
            "--large" => options.large = true,
            "--bytes" => options.routes = vec![Route::Bytes],
            "--typed" => options.routes = vec![Route::Typed],
            "--alone" => options.alone = true,
            "--stop" => options.stop = true,
            "--trace" => options.trace = true,
            "--apart" => options.apart = true,
            other => return Err(format!("unknown word '{other}'")),
        }
    }
    Ok(options)
}

impl Options {
    /// Whether only some groups are to be run, or one way of making calls.
    fn is_part(&self) -> bool {
        let some = self.typed_groups || self.lending || self.large;
        let one_way = some || self.routes.len() == 1;
        self.group.is_some() || self.operation.is_some() || one_way
    }

    /// How calls are made; these words, and those of the options, make them again.
    fn manner(&self, words: String) -> Manner {
        let mut replay = words;
        if let [route] = self.routes[..] {
            replay.push_str(if route == Route::Bytes { " --bytes" } else { " --typed" });
        }
        let Options { stop, trace, apart, .. } = *self;
        Manner { replay, routes: self.routes.clone(), trace, stop, apart }
    }

    fn wants(&self, group: &Group) -> bool {
        self.group.as_ref().is_none_or(|name| *name == group.name)
            && self.operation.as_ref().is_none_or(|name| group.is_of(name))
            && (group.typed || !self.typed_groups)
            && (group.is_lending() || !self.lending)
            && (group.is_large() || !self.large)
    }
}

/// Groups passed and failed.
#[derive(Default)]
struct Tally {
    passed: u64,
    failed: u64,
}

impl Tally {
    fn add(&mut self, name: &str, passed: bool, detail: String) {
        println!("{} {name}: {detail}", if passed { "ok    " } else { "FAILED" });
        if passed {
            self.passed += 1;
        } else {
            self.failed += 1;
        }
    }
}

fn run_groups(checker: &mut Checker, options: &Options, tally: &mut Tally) {
    let typed = checker.makes(Route::Typed);
    let wanted = groups::all().into_iter().filter(|group| options.wants(group));
    let (present, absent): (Vec<Group>, Vec<Group>) = wanted
        .filter(|group| typed || !group.typed)
        .partition(|group| group.is_in(checker.library));
    if let ([], [group, ..]) = (&present[..], &absent[..]) {
        let name = options.operation.as_ref().unwrap_or(&group.name);
        tally.add(name, false, "not run, no entry in the archive".to_string());
    }
    for group in present {
        group.run(checker, options.seed, options.calls);
        let mut counts = Counts::default();
        counts.add(checker);
        let good = counts.differences == 0 && checker.calls > 0;
        tally.add(&group.name, good, counts.to_string());
    }
}

/// The calls of some groups.
#[derive(Default)]
struct Counts {
    over_bytes: u64,
    typed: u64,
    differences: u64,
}

impl Counts {
    /// Adds the group that has run.
    fn add(&mut self, checker: &Checker) {
        self.over_bytes += checker.over_bytes;
        self.typed += checker.typed;
        self.differences += checker.differences;
    }
}

impl Display for Counts {
    fn fmt(&self, f: &mut Formatter) -> Result<(), fmt::Error> {
        let Counts { over_bytes, typed, differences } = self;
        write!(f, "{over_bytes} calls over bytes, {typed} typed, {differences} differences")
    }
}

/// The benchmark's baselines must be right too: all groups once but those of large lists, which have
/// none, with a tenth of the random calls. What they reach is not recorded.
fn check_plain(library: &Library, option: &str, options: &Options) -> Counts {
    let (seed, random_calls) = (options.seed, options.calls / 10);
    let replay = format!("{option} --seed {seed} --calls {random_calls}");
    let mut checker = Checker::new(library, options.manner(replay));
    checker.records = false;
    let mut counts = Counts::default();
    let typed = checker.makes(Route::Typed);
    let all = groups::all().into_iter().filter(|group| typed || !group.typed);
    for group in all.filter(|group| !group.is_large()) {
        group.run(&mut checker, seed, random_calls);
        counts.add(&checker);
    }
    counts
}

/// The baselines, and what their groups are printed as.
fn check_baselines(options: &Options) -> [(&'static str, Counts); 2] {
    [
        ("plain Rust: all groups", check_plain(&plain::LIBRARY, "--plain", options)),
        (
            "plain Rust, decoding inside: all groups",
            check_plain(&decoded::LIBRARY, "--decoded", options),
        ),
    ]
}

fn check_coverage(coverage: &Coverage, library: &Library, tally: &mut Tally) {
    coverage.print();
    let missing = coverage.missing(library);
    for what in &missing {
        println!("  never reached: {what}");
    }
    tally.add("coverage", missing.is_empty(), format!("{} kinds never reached", missing.len()));
}

fn run(options: &Options) -> ExitCode {
    println!("seed {}, {} random calls of each width", options.seed, options.calls);
    let mut tally = Tally::default();
    let library = options.library;
    let replay = format!("--seed {} --calls {}", options.seed, options.calls);
    let mut checker = Checker::new(library, options.manner(replay));
    // The baselines need no call of the port's: they are checked beside it.
    std::thread::scope(|scope| {
        let whole = !options.is_part();
        let beside = (whole && !options.alone).then(|| scope.spawn(|| check_baselines(options)));
        run_groups(&mut checker, options, &mut tally);
        for (name, counts) in beside.into_iter().flat_map(|thread| thread.join().unwrap()) {
            tally.add(name, counts.differences == 0, counts.to_string());
        }
        if whole {
            check_coverage(&checker.coverage, library, &mut tally);
            library.print_absent();
        }
    });
    println!("harness: {} passed, {} failed", tally.passed, tally.failed);
    if tally.failed == 0 && tally.passed > 0 {
        ExitCode::SUCCESS
    } else {
        ExitCode::FAILURE
    }
}

fn main() -> ExitCode {
    let mut words = std::env::args().skip(1).peekable();
    match words.peek().map(String::as_str) {
        Some("bench") => {
            let words: Vec<String> = words.skip(1).collect();
            return bench::run(&port::LIBRARY, &words);
        }
        Some("example") => example::print(&port::LIBRARY),
        Some("groups") => groups::all().iter().for_each(|group| println!("{}", group.name)),
        #[cfg(mock)]
        Some("defects") => defects::print(),
        _ => match parse(words) {
            Ok(options) => return run(&options),
            Err(message) => {
                eprintln!("harness: {message}");
                return ExitCode::from(2);
            }
        },
    }
    ExitCode::SUCCESS
}

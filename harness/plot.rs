//! Draws the plot of the benchmark as SVG: a panel for each operation, and in it the time of each
//! side over the length of a row, without bitmaps and with nulls. Both axes are logarithmic; each
//! panel has a scale of its own.

use std::fmt::Write;

/// The sides, in the order in which their times are given, and their colours.
const SIDES: [(&str, &str); 3] = [
    ("typed call", "#1565a9"),
    ("plain safe Rust", "#e07b12"),
    ("memcpy of the values", "#8a8a8a"),
];

/// What is lent, as lines are drawn: without bitmaps, and with nulls.
const LENT: [(&str, &str); 2] =
    [("no bitmaps", "none"), ("one element and row in eight null", "5 3.5")];

const PAPER: &str = "#ffffff";
const INK: &str = "#222222";
const PALE_INK: &str = "#5f5f5f";
const GRID: &str = "#e9e9e9";
const FRAME: &str = "#bdbdbd";

/// Pixels.
const WIDTH: f64 = 1200.0;
const COLUMNS: usize = 4;
const MARGIN: f64 = 28.0;
const LEFT: f64 = 78.0;
const TOP: f64 = 142.0;
const PANEL_WIDTH: f64 = 234.0;
const PANEL_HEIGHT: f64 = 176.0;
const COLUMN_STEP: f64 = 287.0;
const ROW_STEP: f64 = 240.0;
const BELOW: f64 = 76.0;

/// The ends of the horizontal axis, a little beside the shortest and the longest row.
const LENGTHS: (f64, f64) = (0.8, 5000.0);
const LENGTH_TICKS: [usize; 4] = [1, 10, 100, 1000];

/// Up to so many decades every tick of 1, 2 and 5 has its number, and otherwise those of 1.
const FEW_DECADES: f64 = 1.45;

/// The times of an operation: of each side, for what is lent, over the length of a row.
pub struct Panel {
    title: String,
    lines: [[Vec<(f64, f64)>; SIDES.len()]; LENT.len()],
}

impl Panel {
    pub fn new(title: &str) -> Panel {
        Panel { title: title.to_string(), lines: Default::default() }
    }

    /// Adds the nanoseconds an element of each side for rows of a length, where they are numbers.
    pub fn add(&mut self, with_nulls: bool, length: usize, times: [f64; SIDES.len()]) {
        for (line, time) in self.lines[usize::from(with_nulls)].iter_mut().zip(times) {
            if time.is_finite() {
                line.push((length as f64, time));
            }
        }
    }

    /// The vertical axis with all times on it.
    fn axis(&self, top: f64) -> Axis {
        let times = || self.lines.iter().flatten().flatten().map(|(_, time)| *time);
        let (least, most) = (times().fold(f64::INFINITY, f64::min), times().fold(0.0, f64::max));
        let from = ticks(least / 10.0, least * 0.98).last().map_or(least, |tick| tick.value);
        let to = ticks(most * 1.02, most * 10.0).first().map_or(most, |tick| tick.value);
        Axis { from, to, start: top + PANEL_HEIGHT, end: top }
    }
}

/// Where numbers from one to another lie.
struct Axis {
    from: f64,
    to: f64,
    start: f64,
    end: f64,
}

impl Axis {
    fn place(&self, value: f64) -> f64 {
        let part = (value / self.from).log10() / self.decades();
        self.start + (self.end - self.start) * part
    }

    fn decades(&self) -> f64 {
        (self.to / self.from).log10()
    }
}

/// A number on an axis, and how many decimals it is written with.
struct Tick {
    value: f64,
    decimals: usize,
    is_decade: bool,
}

/// The numbers of 1, 2 and 5 in each decade between two, with these.
fn ticks(from: f64, to: f64) -> Vec<Tick> {
    let tick = |(exponent, digit): (i32, u8)| Tick {
        value: f64::from(digit) * 10f64.powi(exponent),
        decimals: exponent.min(0).unsigned_abs() as usize,
        is_decade: digit == 1,
    };
    let all = (-6..7).flat_map(|exponent| [1, 2, 5].map(|digit| (exponent, digit)));
    let within = |tick: &Tick| from * 0.999 <= tick.value && tick.value <= to * 1.001;
    all.map(tick).filter(within).collect()
}

/// What is drawn so far.
struct Drawing {
    svg: String,
}

/// Where a text has its place.
#[derive(Clone, Copy)]
enum Anchor {
    Start,
    Middle,
    End,
}

impl Anchor {
    fn name(self) -> &'static str {
        match self {
            Anchor::Start => "start",
            Anchor::Middle => "middle",
            Anchor::End => "end",
        }
    }
}

impl Drawing {
    fn add(&mut self, element: std::fmt::Arguments) {
        writeln!(self.svg, "{element}").expect("a text takes all that is written");
    }

    fn text(&mut self, (x, y): (f64, f64), anchor: Anchor, style: &str, text: &str) {
        let anchor = anchor.name();
        let text = text.replace('&', "&amp;").replace('<', "&lt;");
        self.add(format_args!(
            r#"<text x="{x:.1}" y="{y:.1}" text-anchor="{anchor}" {style}>{text}</text>"#
        ));
    }

    fn line(&mut self, from: (f64, f64), to: (f64, f64), colour: &str, width: f64) {
        let ((x1, y1), (x2, y2)) = (from, to);
        self.add(format_args!(
            r#"<path d="M{x1:.1} {y1:.1}L{x2:.1} {y2:.1}" stroke="{colour}" stroke-width="{width}"/>"#
        ));
    }

    /// A line through these places, with a dot at each, which is open where it is dashed.
    fn curve(&mut self, places: &[(f64, f64)], colour: &str, dashes: &str) {
        let path: Vec<String> = places.iter().map(|(x, y)| format!("{x:.1} {y:.1}")).collect();
        let path = path.join("L");
        self.add(format_args!(
            r#"<path d="M{path}" fill="none" stroke="{colour}" stroke-width="1.7" stroke-linejoin="round" stroke-dasharray="{dashes}"/>"#
        ));
        self.dots(places, colour, 5.2);
        if dashes != "none" {
            self.dots(places, PAPER, 2.8);
        }
    }

    /// Dots of a width, which are lines of no length with round ends.
    fn dots(&mut self, places: &[(f64, f64)], colour: &str, width: f64) {
        let path: String = places.iter().map(|(x, y)| format!("M{x:.1} {y:.1}h0")).collect();
        self.add(format_args!(
            r#"<path d="{path}" stroke="{colour}" stroke-width="{width}" stroke-linecap="round"/>"#
        ));
    }

    /// The title, what was measured, and what the lines are.
    fn heading(&mut self, values: usize) {
        let title = r#"font-size="23" font-weight="bold""#;
        self.text((MARGIN, 40.0), Anchor::Start, title, "Time an element over the length of a row");
        let time = "Nanoseconds an element of the first list lent, the least of some rounds in turns on one core.";
        let columns = format!("Columns of {values} values, half of that where the result grows");
        let measured = [
            format!("{time} Each panel has a scale of its own."),
            format!(
                "{columns}; offsets of 32 bits, bitmaps from bit 0. Both axes are logarithmic."
            ),
        ];
        let pale = format!(r#"font-size="13.5" fill="{PALE_INK}""#);
        for (text, y) in measured.iter().zip([63.0, 81.0]) {
            self.text((MARGIN, y), Anchor::Start, &pale, text);
        }
        let sides = SIDES.map(|(name, colour)| (name, colour, "none"));
        let lent = LENT.map(|(name, dashes)| (name, INK, dashes));
        let mut x = MARGIN;
        for (name, colour, dashes) in sides.into_iter().chain(lent) {
            self.curve(&[(x, 106.0), (x + 19.0, 106.0), (x + 38.0, 106.0)], colour, dashes);
            self.text((x + 46.0, 110.5), Anchor::Start, r#"font-size="13.5""#, name);
            x += 78.0 + 7.2 * name.len() as f64;
        }
    }

    fn grid(&mut self, x: &Axis, y: &Axis) {
        let small = format!(r#"font-size="11" fill="{PALE_INK}""#);
        for length in LENGTH_TICKS {
            let at = x.place(length as f64);
            self.line((at, y.start), (at, y.end), GRID, 1.0);
            self.text((at, y.start + 15.0), Anchor::Middle, &small, &length.to_string());
        }
        let all = y.decades() <= FEW_DECADES;
        for Tick { value, decimals, is_decade } in ticks(y.from, y.to) {
            let at = y.place(value);
            self.line((x.start, at), (x.end, at), GRID, if is_decade { 1.4 } else { 0.7 });
            if all || is_decade {
                let number = format!("{value:.decimals$}");
                self.text((x.start - 6.0, at + 3.8), Anchor::End, &small, &number);
            }
        }
        self.line((x.start, y.start), (x.end, y.start), FRAME, 1.0);
        self.line((x.start, y.start), (x.start, y.end), FRAME, 1.0);
    }

    fn panel(&mut self, panel: &Panel, left: f64, top: f64) {
        let x = Axis { from: LENGTHS.0, to: LENGTHS.1, start: left, end: left + PANEL_WIDTH };
        let y = panel.axis(top);
        self.grid(&x, &y);
        let style = r#"font-size="14.5" font-weight="bold""#;
        self.text((left, top - 10.0), Anchor::Start, style, &panel.title);
        for side in (0..SIDES.len()).rev() {
            for (lent, (_, dashes)) in LENT.iter().enumerate().rev() {
                let points = panel.lines[lent][side].iter();
                let places: Vec<(f64, f64)> =
                    points.map(|(length, time)| (x.place(*length), y.place(*time))).collect();
                if !places.is_empty() {
                    self.curve(&places, SIDES[side].1, dashes);
                }
            }
        }
    }

    /// The names of the axes, below the last panel of a column and beside the first of a row.
    fn names(&mut self, left: f64, top: f64, below: bool, beside: bool) {
        let style = format!(r#"font-size="12" fill="{PALE_INK}""#);
        if below {
            let place = (left + PANEL_WIDTH / 2.0, top + PANEL_HEIGHT + 34.0);
            self.text(place, Anchor::Middle, &style, "elements a row");
        }
        if beside {
            let (x, y) = (left - 50.0, top + PANEL_HEIGHT / 2.0);
            let turned = format!(r#"{style} transform="rotate(-90 {x:.1} {y:.1})""#);
            self.text((x, y), Anchor::Middle, &turned, "nanoseconds an element");
        }
    }
}

/// The plot of these panels, whose columns have so many values.
pub fn svg(panels: &[Panel], values: usize) -> String {
    let rows = panels.len().div_ceil(COLUMNS) as f64;
    let height = TOP + (rows - 1.0) * ROW_STEP + PANEL_HEIGHT + BELOW;
    let mut drawing = Drawing { svg: String::new() };
    drawing.add(format_args!(
        r#"<svg xmlns="http://www.w3.org/2000/svg" width="{WIDTH}" height="{height}" viewBox="0 0 {WIDTH} {height}" font-family="Helvetica, Arial, 'Liberation Sans', 'DejaVu Sans', sans-serif" fill="{INK}">"#
    ));
    drawing.add(format_args!("<title>Time of typed calls over the length of a row</title>"));
    drawing.add(format_args!(r#"<rect width="100%" height="100%" fill="{PAPER}"/>"#));
    drawing.heading(values);
    for (at, panel) in panels.iter().enumerate() {
        let left = LEFT + (at % COLUMNS) as f64 * COLUMN_STEP;
        let top = TOP + 24.0 + (at / COLUMNS) as f64 * ROW_STEP;
        drawing.panel(panel, left, top);
        drawing.names(left, top, at + COLUMNS >= panels.len(), at % COLUMNS == 0);
    }
    drawing.add(format_args!("</svg>"));
    drawing.svg
}

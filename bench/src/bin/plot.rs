//! Draws the table that `bench --growth` prints: reads it from standard input and writes an SVG
//! picture to standard output. There is a plot for each quantity that the times grow with, both of
//! its axes logarithmic. Records differ in colour, sides in the kind of line.

use std::io::{self, Read};
use std::process::ExitCode;

/// The size of a plot within its axes, and the room around it for their labels.
const WIDTH: f64 = 400.0;
const HEIGHT: f64 = 300.0;
const ROOM: f64 = 60.0;

const GREY: &str = "#dddddd";
const BLACK: &str = "#222222";
const COLOURS: [&str; 5] = ["#c0392b", "#1f618d", "#1e8449", "#b9770e", "#6c3483"];

/// The strokes and gaps of a line.
type Dashes = &'static str;
const WHOLE: Dashes = "none";
const DASHES: [Dashes; 4] = [WHOLE, "8 3", "2 3", "8 3 2 3"];

struct Row<'a> {
    by: &'a str,
    record: &'a str,
    amount: f64,
    /// A time for each side.
    times: Vec<f64>,
}

struct Table<'a> {
    sides: Vec<&'a str>,
    rows: Vec<Row<'a>>,
}

fn parse(text: &str) -> Option<Table<'_>> {
    let (head, rows) = text.split_once('\n')?;
    let sides: Vec<_> = head.split('\t').skip(3).collect();
    let row = |line| parse_row(line).filter(|row| row.times.len() == sides.len());
    let rows = rows.lines().map(row).collect::<Option<_>>()?;
    Some(Table { sides, rows })
}

fn parse_row(line: &str) -> Option<Row<'_>> {
    let mut words = line.split('\t');
    Some(Row {
        by: words.next()?,
        record: words.next()?,
        amount: words.next()?.parse().ok()?,
        times: words.map(|word| word.parse().ok()).collect::<Option<_>>()?,
    })
}

/// The different words, in the order in which they come.
fn different<'a>(words: impl Iterator<Item = &'a str>) -> Vec<&'a str> {
    let mut seen = Vec::new();
    words.for_each(|word| {
        if !seen.contains(&word) {
            seen.push(word);
        }
    });
    seen
}

/// A logarithmic axis: the values at its ends, and where these are drawn.
struct Axis {
    values: [f64; 2],
    places: [f64; 2],
}

impl Axis {
    fn place(&self, value: f64) -> f64 {
        let ([low, high], [from, to]) = (self.values, self.places);
        from + (to - from) * (value / low).ln() / (high / low).ln()
    }
}

fn ends(values: impl Iterator<Item = f64>) -> [f64; 2] {
    values.fold([f64::MAX, 0.0], |[low, high], v| [v.min(low), v.max(high)])
}

fn line(points: &[(f64, f64)], colour: &str, dashes: Dashes) -> String {
    let points: Vec<_> = points
        .iter()
        .map(|(x, y)| format!("{x:.1},{y:.1}"))
        .collect();
    let points = points.join(" ");
    format!("<polyline points=\"{points}\" fill=\"none\" stroke=\"{colour}\" stroke-width=\"1.5\" stroke-dasharray=\"{dashes}\"/>\n")
}

/// A text and which end of it is at the point: `start`, `middle` or `end`.
fn text((x, y): (f64, f64), anchor: &str, words: &str) -> String {
    format!("<text x=\"{x:.1}\" y=\"{y:.1}\" text-anchor=\"{anchor}\">{words}</text>\n")
}

/// The amounts from the greatest down, without those too near to the one before to be labelled.
fn labelled(rows: &[&Row], x: &Axis) -> Vec<f64> {
    let mut amounts: Vec<_> = rows.iter().map(|row| row.amount).collect();
    amounts.sort_by(|a, b| b.total_cmp(a));
    amounts.dedup_by(|next, kept| x.place(*kept) - x.place(*next) < 20.0);
    amounts
}

/// The grid with its labels: the amounts, and times that are powers of ten.
fn grid(by: &str, rows: &[&Row], x: &Axis, y: &Axis) -> String {
    let ([left, right], [bottom, top]) = (x.places, y.places);
    let mut svg = text(((left + right) / 2.0, bottom + 38.0), "middle", by);
    svg += &text((left, top - 10.0), "middle", "microseconds");
    for amount in labelled(rows, x) {
        let at = x.place(amount);
        svg += &line(&[(at, bottom), (at, top)], GREY, WHOLE);
        svg += &text((at, bottom + 18.0), "middle", &amount.to_string());
    }
    let [low, high] = y.values.map(|time| time.log10().round() as i32);
    for time in (low..=high).map(|power| 10f64.powi(power)) {
        let at = y.place(time);
        svg += &line(&[(left, at), (right, at)], GREY, WHOLE);
        svg += &text((left - 6.0, at + 4.0), "end", &time.to_string());
    }
    let corner = [(left, top), (left, bottom), (right, bottom)];
    svg + &line(&corner, BLACK, WHOLE)
}

/// The plot of the rows that have this quantity, from this place on.
fn plot(table: &Table, records: &[&str], by: &str, left: f64) -> String {
    let rows: Vec<_> = table.rows.iter().filter(|row| row.by == by).collect();
    let [least, most] = ends(rows.iter().flat_map(|row| row.times.iter().copied()));
    let x = Axis {
        values: ends(rows.iter().map(|row| row.amount)),
        places: [left, left + WIDTH],
    };
    let y = Axis {
        values: [least.log10().floor(), most.log10().ceil()].map(|p| 10f64.powf(p)),
        places: [ROOM + HEIGHT, ROOM],
    };
    let mut svg = grid(by, &rows, &x, &y);
    for (record, colour) in records.iter().zip(COLOURS) {
        let own: Vec<_> = rows.iter().filter(|row| row.record == *record).collect();
        if own.is_empty() {
            continue;
        }
        for (side, dashes) in (0..table.sides.len()).zip(DASHES) {
            let point = |row: &&&Row| (x.place(row.amount), y.place(row.times[side]));
            svg += &line(&own.iter().map(point).collect::<Vec<_>>(), colour, dashes);
        }
    }
    svg
}

/// A stroke and a name for each kind of line, next to each other.
fn legend<'a>(y: f64, kinds: impl Iterator<Item = (&'a &'a str, &'a str, Dashes)>) -> String {
    let entry = |(place, (name, colour, dashes)): (usize, (&&str, &str, Dashes))| {
        let x = ROOM + 170.0 * place as f64;
        let stroke = line(&[(x, y), (x + 40.0, y)], colour, dashes);
        stroke + &text((x + 48.0, y + 4.0), "start", name)
    };
    kinds.enumerate().map(entry).collect()
}

fn draw(table: &Table) -> String {
    let records = different(table.rows.iter().map(|row| row.record));
    let quantities = different(table.rows.iter().map(|row| row.by));
    let step = WIDTH + 1.5 * ROOM;
    let foot = 2.0 * ROOM + HEIGHT;
    let (width, height) = (step * quantities.len() as f64, foot + ROOM);
    let mut svg = format!(
        "<svg xmlns=\"http://www.w3.org/2000/svg\" viewBox=\"0 0 {width} {height}\" \
         font-family=\"sans-serif\" font-size=\"12\" fill=\"{BLACK}\">\n\
         <rect width=\"{width}\" height=\"{height}\" fill=\"white\"/>\n"
    );
    for (place, by) in quantities.iter().enumerate() {
        svg += &plot(table, &records, by, ROOM + step * place as f64);
    }
    let of_record = records
        .iter()
        .zip(COLOURS)
        .map(|(r, colour)| (r, colour, WHOLE));
    let of_side = table
        .sides
        .iter()
        .zip(DASHES)
        .map(|(s, dashes)| (s, BLACK, dashes));
    svg + &legend(foot, of_record) + &legend(foot + 24.0, of_side) + "</svg>\n"
}

fn main() -> ExitCode {
    let mut table = String::new();
    let read = io::stdin().read_to_string(&mut table);
    match read.ok().and_then(|_| parse(&table)) {
        Some(table) => print!("{}", draw(&table)),
        None => {
            eprintln!("plot: no table of `bench --growth`");
            return ExitCode::from(2);
        }
    }
    ExitCode::SUCCESS
}

//! What was timed, and its tables.

#[derive(Clone, Copy, Debug, PartialEq)]
pub struct Size {
    pub n: usize,
    pub m: usize,
}

/// The times of one thing, in seconds. There is no program in C.
#[derive(Clone, Copy, Debug)]
pub struct Row {
    pub what: &'static str,
    pub size: Option<Size>,
    pub proved: f64,
    pub plain: f64,
    pub c: Option<f64>,
}

impl Row {
    fn size(&self) -> String {
        self.size.map_or(String::new(), |size| format!("{}, {}", size.n, size.m))
    }

    /// How many times as long the proved code takes as the plain Rust and as the C.
    fn ratios(&self) -> [String; 2] {
        [Some(self.plain), self.c].map(|other| or_empty(other, |time| two(self.proved / time)))
    }

    fn c(&self) -> String {
        or_empty(self.c, time)
    }
}

fn or_empty<T>(value: Option<T>, show: impl Fn(T) -> String) -> String {
    value.map_or(String::new(), show)
}

fn two(ratio: f64) -> String {
    format!("{ratio:.2}")
}

/// A time with three digits and its unit.
pub fn time(seconds: f64) -> String {
    let (value, unit) = match seconds {
        s if s < 1e-6 => (s * 1e9, "ns"),
        s if s < 1e-3 => (s * 1e6, "µs"),
        s => (s * 1e3, "ms"),
    };
    let digits = if value < 10.0 {
        2
    } else if value < 100.0 {
        1
    } else {
        0
    };
    format!("{value:.digits$} {unit}")
}

fn print_heading(columns: &[&str]) {
    println!("\n| {} |", columns.join(" | "));
    println!("|{}", "---|".repeat(columns.len()));
}

fn print_line(cells: &[String]) {
    println!("| {} |", cells.join(" | "));
}

pub fn print_rows(rows: &[Row]) {
    print_heading(&["what", "N, M", "proved", "plain Rust", "ratio", "C", "ratio"]);
    for row in rows {
        let [to_plain, to_c] = row.ratios();
        let (proved, plain) = (time(row.proved), time(row.plain));
        print_line(&[row.what.into(), row.size(), proved, plain, to_plain, row.c(), to_c]);
    }
}

/// For each thing its times from size to size.
pub fn print_growth(growth: &[[Row; 4]]) {
    const TIMES: &str = "times the one before";
    print_heading(&[
        "growth, N and M doubled",
        "N, M",
        "proved",
        TIMES,
        "plain Rust",
        TIMES,
        "ratio",
        "C",
        TIMES,
        "ratio",
    ]);
    for thing in 0..4 {
        let rows: Vec<Row> = growth.iter().map(|rows| rows[thing]).collect();
        for (place, row) in rows.iter().enumerate() {
            let factor = |of: fn(&Row) -> Option<f64>| {
                let before = place.checked_sub(1).and_then(|before| of(&rows[before]));
                or_empty(of(row).zip(before), |(time, before)| two(time / before))
            };
            let [to_plain, to_c] = row.ratios();
            print_line(&[
                row.what.into(),
                row.size(),
                time(row.proved),
                factor(|row| Some(row.proved)),
                time(row.plain),
                factor(|row| Some(row.plain)),
                to_plain,
                row.c(),
                factor(|row| row.c),
                to_c,
            ]);
        }
    }
}

/// The times of one thing on waits of one shape, and the deliveries of the whole check.
pub struct Shaped {
    pub shape: &'static str,
    pub deliveries: usize,
    pub row: Row,
}

/// How many times as long as the plain Rust and as the C the proved code may take, if that is bounded.
pub type Bounds = [Option<f64>; 2];

/// How many times as long one delivery may take in the largest check as in the one before.
const DELIVERY_BOUND: f64 = 1.1;

/// For each shape its times by size, with the bounds for each N.
pub fn print_shapes(shaped: &[Shaped], bounds: fn(usize) -> Bounds) {
    const WITHIN: &str = "to be within";
    let what = shaped.first().map_or("", |check| check.row.what);
    let columns =
        [what, "N, M", "deliveries", "proved", "plain Rust", "ratio", WITHIN, "C", "ratio", WITHIN];
    print_heading(&columns);
    for Shaped { shape, deliveries, row } in shaped {
        let Some(Size { n, .. }) = row.size else { continue };
        let [to_plain, to_c] = row.ratios();
        let [within_plain, within_c] = bounds(n).map(|bound| or_empty(bound, |b| b.to_string()));
        print_line(&[
            shape.to_string(),
            row.size(),
            deliveries.to_string(),
            time(row.proved),
            time(row.plain),
            to_plain,
            within_plain,
            row.c(),
            to_c,
            within_c,
        ]);
    }
}

/// For each shape its time for each delivery in the two largest.
pub fn print_deliveries(shaped: &[Shaped]) {
    const TIMES: &str = "times as long";
    print_heading(&[
        "time for each delivery, N 64 to 128",
        "proved",
        TIMES,
        "to be within",
        "plain Rust",
        TIMES,
        "C",
        TIMES,
    ]);
    for sizes in shaped.chunk_by(|a, b| a.shape == b.shape) {
        let [.., smaller, larger] = sizes else { continue };
        let each = |of: fn(&Row) -> Option<f64>| {
            let one = |check: &Shaped| of(&check.row).map(|time| time / check.deliveries as f64);
            let both = one(smaller).zip(one(larger));
            [
                or_empty(both, |(from, to)| format!("{} to {}", time(from), time(to))),
                or_empty(both, |(from, to)| two(to / from)),
            ]
        };
        let [proved, proved_times] = each(|row| Some(row.proved));
        let [plain, plain_times] = each(|row| Some(row.plain));
        let [c, c_times] = each(|row| row.c);
        let within = DELIVERY_BOUND.to_string();
        let shape = larger.shape.to_string();
        print_line(&[shape, proved, proved_times, within, plain, plain_times, c, c_times]);
    }
}

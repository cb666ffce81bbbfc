//! The times of calls as tables: every line, the worst ratio of each function, and how time grows with the map.

use crate::cases::{SIZES, SLOW_SIZES};
use crate::finds::FINDS;

/// One function on one map: nanoseconds a call of ours and of ordinary Rust.
#[derive(Clone)]
pub struct Line {
    pub function: String,
    pub map: String,
    pub vertices: usize,
    /// Of a slow map, what was asked.
    pub asked: String,
    pub ours: f64,
    pub plain: f64,
}

/// One join: nanoseconds a call of ours and of ordinary Rust's two sweeps, and what came.
pub struct Join {
    pub operation: String,
    pub maps: String,
    pub vertices: usize,
    pub result: String,
    pub ours: f64,
    pub lists: f64,
    pub rows: f64,
}

/// The functions with the ratio that each may reach; the joins stand behind them.
const BARS: [(&str, u32); 11] = [
    ("check", 2),
    ("box", 2),
    ("cell", 2),
    ("corner", 2),
    ("plane", 2),
    ("section", 4),
    ("split", 4),
    ("nearest", 3),
    ("distance", 3),
    ("nearest many", 3),
    ("program", 3),
];
/// The ratio that a join may reach beside a sweep over lists.
const JOIN_BAR: u32 = 5;
/// The maps whose growth is shown.
const MAPS: [&str; 3] = ["boxes", "lump", "nested shells"];

impl Line {
    /// How many times as long ours takes.
    pub fn ratio(&self) -> f64 {
        self.ours / self.plain
    }

    /// The size of the slow maps that this one is of: it may have fewer vertices.
    fn size(&self) -> usize {
        let sizes = SLOW_SIZES.iter().copied();
        sizes
            .filter(|size| *size >= self.vertices)
            .min()
            .unwrap_or(0)
    }

    /// The map in words, with what was asked.
    pub fn map_asked(&self) -> String {
        match self.asked.as_str() {
            "" => self.map.clone(),
            asked => format!("{}; {asked}", self.map),
        }
    }

    /// The line's call in words, with its times.
    pub fn words(&self) -> String {
        format!(
            "{}, {}, {} vertices: {:.0} ns beside {:.0}",
            self.function,
            self.map_asked(),
            self.vertices,
            self.ours,
            self.plain
        )
    }

    /// The line of the table.
    fn row(&self) -> String {
        format!(
            "| {} | {} | {} | {:.0} | {:.0} | {:.2} |",
            self.function,
            self.map_asked(),
            self.vertices,
            self.ours,
            self.plain,
            self.ratio()
        )
    }
}

impl Join {
    /// The line of the table.
    fn row(&self) -> String {
        format!(
            "| {} | {} | {} | {} | {:.0} | {:.0} | {:.2} | {:.0} | {:.2} |",
            self.operation,
            self.maps,
            self.vertices,
            self.result,
            self.ours,
            self.lists,
            self.ours / self.lists,
            self.rows,
            self.ours / self.rows
        )
    }

    /// The same beside one of the two sweeps.
    pub fn beside(&self, plain: f64) -> Line {
        Line {
            function: self.operation.clone(),
            map: self.maps.clone(),
            vertices: self.vertices,
            asked: String::new(),
            ours: self.ours,
            plain,
        }
    }
}

/// A number with a comma before its last three digits.
fn thousands(number: usize) -> String {
    match number / 1000 {
        0 => number.to_string(),
        thousand => format!("{thousand},{:03}", number % 1000),
    }
}

/// A table: its head, the columns to the right, and its lines.
pub fn table(head: &str, lines: impl Iterator<Item = String>) -> String {
    let columns = head.matches('|').count() - 1;
    let numbers = ["vertices", "ns", "ratio", "bar", "boxes", "power", "check"];
    let right = |name: &str| {
        let sized = SIZES.iter().any(|size| name.trim() == thousands(*size));
        sized || numbers.iter().any(|end| name.trim().ends_with(end))
    };
    let names: Vec<&str> = head.split('|').skip(1).take(columns).collect();
    let rule = names
        .iter()
        .map(|name| if right(name) { "---:|" } else { "---|" });
    let mut text = format!("{head}\n|{}\n", rule.collect::<String>());
    lines.for_each(|line| text.push_str(&format!("{line}\n")));
    text
}

/// The power of the vertices with which time grows from one line to another.
pub fn power(low: &Line, high: &Line) -> f64 {
    let vertices = high.vertices as f64 / low.vertices as f64;
    (high.ours / low.ours).ln() / vertices.ln()
}

/// The line with the worst ratio.
fn worst<'a>(lines: impl Iterator<Item = &'a Line>) -> Option<&'a Line> {
    lines.max_by(|a, b| a.ratio().total_cmp(&b.ratio()))
}

/// The line of the table of the worst ratios.
fn worst_row(name: &str, bar: &str, line: &Line) -> String {
    format!(
        "| {name} | {bar} | {:.2} | {} |",
        line.ratio(),
        line.words()
    )
}

/// The worst ratio of each function over all maps and sizes, beside its bar.
pub fn worst_table(lines: &[Line], joins: &[Join]) -> String {
    let of = |name: &str| {
        let named = lines
            .iter()
            .filter(move |line| line.function.split(',').next() == Some(name));
        worst(named)
    };
    let mut rows: Vec<String> = BARS
        .iter()
        .filter_map(|(name, bar)| Some(worst_row(name, &bar.to_string(), of(name)?)))
        .collect();
    let lists: Vec<Line> = joins.iter().map(|join| join.beside(join.lists)).collect();
    let bits: Vec<Line> = joins.iter().map(|join| join.beside(join.rows)).collect();
    let bar = JOIN_BAR.to_string();
    rows.extend(
        worst(lists.iter()).map(|line| worst_row("join, beside a sweep over lists", &bar, line)),
    );
    rows.extend(
        worst(bits.iter())
            .map(|line| worst_row("join, beside a sweep over rows of bits", "none", line)),
    );
    table("| function | bar | worst ratio | at |", rows.into_iter())
}

/// How our time grows: for each function and map the nanoseconds a call at each size.
pub fn growth_table(lines: &[Line], joins: &[Join]) -> String {
    let joined = joins.iter().map(|join| join.beside(join.lists));
    let joined: Vec<Line> = joined
        .map(|line| Line {
            function: format!("join, {}", line.function),
            ..line
        })
        .collect();
    let all: Vec<&Line> = lines.iter().chain(&joined).collect();
    let mut rows = Vec::new();
    let mut done: Vec<(&str, &str)> = Vec::new();
    for line in &all {
        let key = (line.function.as_str(), line.map.as_str());
        if !MAPS.contains(&key.1) || done.contains(&key) {
            continue;
        }
        done.push(key);
        let at = |size: &usize| {
            let same = |other: &&&Line| {
                (other.function.as_str(), other.map.as_str()) == key && other.vertices == *size
            };
            all.iter()
                .find(same)
                .map_or(String::new(), |other| format!("{:.0}", other.ours))
        };
        let times: Vec<String> = SIZES.iter().map(at).collect();
        if times.iter().filter(|time| !time.is_empty()).count() > 1 {
            rows.push(format!("| {} | {} | {} |", key.0, key.1, times.join(" | ")));
        }
    }
    table(
        &format!("| function | map | {} |", SIZES.map(thousands).join(" | ")),
        rows.into_iter(),
    )
}

/// The slowest of some lines.
fn slowest<'a>(lines: impl Iterator<Item = &'a Line>) -> Option<&'a Line> {
    lines.max_by(|a, b| a.ours.total_cmp(&b.ours))
}

/// The slow maps that were found: for each function and map the slowest call, how it grows, how it stands to the check of
/// the same map, and the worst ratio.
pub fn slow_table(lines: &[Line], joins: &[Join]) -> String {
    let mut all = lines.to_vec();
    all.extend(joins.iter().map(|join| join.beside(join.lists)));
    let of = |function: &str, map: &str, size: Option<usize>| {
        let same = all
            .iter()
            .filter(|l| l.function == function && l.map == map);
        let sized = same.filter(|l| size.is_none_or(|size| l.size() == size));
        sized.cloned().collect::<Vec<Line>>()
    };
    let row = |function: &str, map: &str| {
        let [_, low, high] = SLOW_SIZES.map(|size| of(function, map, Some(size)));
        let (low, high) = (slowest(low.iter())?, slowest(high.iter())?);
        let checks = of("check", map, Some(high.size()));
        let check = slowest(checks.iter())?;
        let both = of(function, map, None);
        Some(format!(
            "| {function} | {} | {:.0} | {:.0} | {:.2} | {:.1} | {:.2} |",
            high.map_asked(),
            low.ours,
            high.ours,
            power(low, high),
            high.ours / check.ours,
            worst(both.iter())?.ratio(),
        ))
    };
    let mut functions: Vec<&str> = Vec::new();
    for line in &all {
        if !functions.contains(&line.function.as_str()) {
            functions.push(&line.function);
        }
    }
    let rows = functions
        .iter()
        .flat_map(|function| FINDS.iter().filter_map(|find| row(function, find.name)));
    let [_, low, high] = SLOW_SIZES.map(thousands);
    table(
        &format!("| function | map, asked | {low}, ns | {high}, ns | power | times the check | worst ratio |"),
        rows,
    )
}

/// Every line.
pub fn line_table(lines: &[Line]) -> String {
    table(
        "| function | map | vertices | ours, ns | Rust, ns | ratio |",
        lines.iter().map(Line::row),
    )
}

/// Every join.
pub fn join_table(joins: &[Join]) -> String {
    table(
        "| join | maps | vertices | result | ours, ns | Rust, lists, ns | ratio | Rust, rows of bits, ns | ratio |",
        joins.iter().map(Join::row),
    )
}

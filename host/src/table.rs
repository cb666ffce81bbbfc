//! Lines of what calls take, each of one function and one map: times beside ordinary Rust, or stack.

use crate::cases::{Case, ASKED};
use crate::clock;
use crate::stack;
use crate::summary::{Join, Line};
use std::hint::black_box;
use std::time::{Duration, Instant};

/// The calls on a map whose stack is measured.
const TURNS: usize = 4;

/// How long calls are timed.
#[derive(Clone, Copy, PartialEq)]
pub struct Pace {
    /// How long one round of calls takes.
    round: Duration,
    /// How many rounds there are; the quickest counts.
    rounds: usize,
    /// No further round begins after so long.
    patience: Duration,
    /// No further point of a slow map is asked after so long.
    points: Duration,
}

impl Pace {
    /// The pace of tables that are kept.
    pub const BENCH: Pace = Pace {
        round: Duration::from_micros(600),
        rounds: 80,
        patience: Duration::from_secs(1),
        points: Duration::from_secs(2),
    };
    /// The pace of a search among many maps.
    pub const SEARCH: Pace = Pace {
        round: Duration::from_micros(20),
        rounds: 2,
        patience: Duration::from_millis(5),
        points: Duration::from_millis(200),
    };
    /// The pace at which finds of a search are timed again.
    pub const SURE: Pace = Pace {
        round: Duration::from_micros(200),
        rounds: 20,
        patience: Duration::from_millis(100),
        points: Duration::from_millis(500),
    };
    /// One call, or two.
    pub const ONCE: Pace = Pace {
        round: Duration::from_nanos(1),
        rounds: 1,
        patience: Duration::ZERO,
        points: Duration::ZERO,
    };
}

/// What is done with each line's calls.
#[derive(Clone, Copy, PartialEq)]
enum Measure {
    /// They are timed.
    Time(Pace),
    /// The stack that ours use is measured.
    Stack,
}

/// The tables under way.
pub struct Table {
    measure: Measure,
    /// The lines of times so far.
    pub lines: Vec<Line>,
    /// The lines of joins so far.
    pub joins: Vec<Join>,
    /// The most stack so far, with the map that took it.
    pub deepest: (usize, String),
    /// The lines whose answers differ.
    pub wrong: Vec<String>,
}

/// Nanoseconds a call, over so many calls.
type Timer<'a> = &'a mut dyn FnMut(usize) -> f64;

impl Table {
    /// Empty tables of times, at this pace.
    pub fn of_times(pace: Pace) -> Table {
        Table::new(Measure::Time(pace))
    }

    /// Empty tables, for stack alone.
    pub fn of_stack() -> Table {
        Table::new(Measure::Stack)
    }

    /// Empty tables.
    fn new(measure: Measure) -> Table {
        Table {
            measure,
            lines: Vec::new(),
            joins: Vec::new(),
            deepest: (0, String::new()),
            wrong: Vec::new(),
        }
    }

    /// Notes that the answers of a function to a map differ.
    fn differs(&mut self, function: &str, case: &Case) {
        self.wrong
            .push(format!("{function}, {}, {}", case.name, case.vertices));
    }

    /// Measures the stack that some calls take.
    fn depth(&mut self, function: &str, case: &Case, ours: &mut impl FnMut(usize) -> u64) {
        for turn in 0..TURNS {
            let depth = stack::depth(&mut || {
                black_box(ours(black_box(turn)));
            });
            if depth > self.deepest.0 {
                let map = format!("{function}, {}, {} vertices", case.name, case.vertices);
                self.deepest = (depth, map);
            }
        }
    }

    /// Adds the line of a function and a map: both versions must give the same answers, and are then timed. Of a slow map
    /// there is a line for the slowest point, and one for the worst beside ordinary Rust.
    pub fn row(
        &mut self,
        function: &str,
        case: &Case,
        mut ours: impl FnMut(usize) -> u64,
        mut plain: impl FnMut(usize) -> u64,
    ) {
        let Measure::Time(pace) = self.measure else {
            return self.depth(function, case, &mut ours);
        };
        if !case.points.is_empty() {
            return self.points(pace, function, case, &mut ours, &mut plain);
        }
        if (0..ASKED).any(|turn| ours(turn) != plain(turn)) {
            self.differs(function, case);
        }
        let times = quickest(
            [&mut |calls| nanoseconds(&mut ours, calls), &mut |calls| {
                nanoseconds(&mut plain, calls)
            }],
            pace,
        );
        self.line(function, case, "", times);
    }

    /// Adds a line.
    fn line(&mut self, function: &str, case: &Case, asked: &str, [ours, plain]: [f64; 2]) {
        self.lines.push(Line {
            function: function.to_string(),
            map: case.name.clone(),
            vertices: case.vertices,
            asked: asked.to_string(),
            ours,
            plain,
        });
    }

    /// Adds the lines of a slow map: the slowest point and the one with the worst ratio, which are looked for quickly.
    fn points(
        &mut self,
        pace: Pace,
        function: &str,
        case: &Case,
        ours: &mut impl FnMut(usize) -> u64,
        plain: &mut impl FnMut(usize) -> u64,
    ) {
        let mut times = |turn: usize, pace| {
            quickest(
                [
                    &mut |calls| nanoseconds(&mut |_| ours(turn), calls),
                    &mut |calls| nanoseconds(&mut |_| plain(turn), calls),
                ],
                pace,
            )
        };
        let start = Instant::now();
        let found: Vec<[f64; 2]> = (0..case.points.len())
            .take_while(|turn| *turn == 0 || start.elapsed() < pace.points)
            .map(|turn| times(turn, Pace::SEARCH))
            .collect();
        for turn in noted(&found) {
            let times = match pace == Pace::SEARCH {
                true => found[turn],
                false => times(turn, pace),
            };
            self.line(function, case, &case.points[turn], times);
        }
        if (0..found.len()).any(|turn| ours(turn) != plain(turn)) {
            self.differs(function, case);
        }
    }

    /// Adds the line of a join: all versions must give the same answer, and are then timed. `result` says what came.
    pub fn join_row(
        &mut self,
        operation: &str,
        case: &Case,
        result: &str,
        mut ours: impl FnMut(usize) -> u64,
        mut lists: impl FnMut(usize) -> u64,
        mut rows: impl FnMut(usize) -> u64,
    ) {
        let Measure::Time(pace) = self.measure else {
            return self.depth(operation, case, &mut ours);
        };
        if ours(0) != lists(0) || ours(0) != rows(0) {
            self.differs(operation, case);
        }
        let [ours, lists, rows] = quickest(
            [
                &mut |calls| nanoseconds(&mut ours, calls),
                &mut |calls| nanoseconds(&mut lists, calls),
                &mut |calls| nanoseconds(&mut rows, calls),
            ],
            pace,
        );
        self.joins.push(Join {
            operation: operation.to_string(),
            maps: case.name.clone(),
            vertices: case.vertices,
            result: result.to_string(),
            ours,
            lists,
            rows,
        });
    }
}

/// The turn that took longest, and the one that took longest beside ordinary Rust, where that is another.
fn noted(times: &[[f64; 2]]) -> Vec<usize> {
    let most = |of: fn(&[f64; 2]) -> f64| {
        let longer = |a: &usize, b: &usize| of(&times[*a]).total_cmp(&of(&times[*b]));
        (0..times.len()).max_by(longer)
    };
    let [slowest, worst] = [most(|[ours, _]| *ours), most(|[ours, plain]| ours / plain)];
    let another = worst.filter(|_| worst != slowest);
    slowest.into_iter().chain(another).collect()
}

/// Nanoseconds a call.
pub fn times(call: &mut impl FnMut(usize) -> u64, pace: Pace) -> f64 {
    let [time] = quickest([&mut |calls| nanoseconds(call, calls)], pace);
    time
}

/// Nanoseconds a call of each version, in the quickest of the rounds, which they take in turn.
fn quickest<const N: usize>(mut timers: [Timer; N], pace: Pace) -> [f64; N] {
    let start = Instant::now();
    let rounds = timers.each_mut().map(|timer| calls_a_round(timer, pace));
    let mut best = rounds.map(|(_, time)| time);
    for _ in 0..pace.rounds {
        if start.elapsed() > pace.patience {
            break;
        }
        for (at, timer) in timers.iter_mut().enumerate() {
            best[at] = best[at].min(timer(rounds[at].0));
        }
    }
    best
}

/// How many calls take about a round, and nanoseconds a call so far.
fn calls_a_round(timer: &mut Timer, pace: Pace) -> (usize, f64) {
    let round = pace.round.as_nanos() as f64;
    let mut calls = 1;
    loop {
        let once = timer(calls);
        let all = once * calls as f64;
        if all * 4.0 >= round || calls > 1 << 24 {
            let calls = (calls as f64 * round / all).ceil().max(1.0);
            return (calls as usize, once);
        }
        calls *= 2;
    }
}

/// Nanoseconds of this thread a call, over so many calls.
fn nanoseconds(call: &mut impl FnMut(usize) -> u64, calls: usize) -> f64 {
    let start = clock::now();
    for turn in 0..calls {
        black_box(call(black_box(turn)));
    }
    (clock::now() - start).as_nanos() as f64 / calls as f64
}

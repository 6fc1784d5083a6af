//! The rounds of the crate `pivot_bench` in plain Rust, for `scripts/bench`, over the fractions of `frac`: the rows of
//! an artery, the dual simplex method by Bland's rule on a dense tableau, and nothing of the proved crates.

mod frac;

use frac::{Frac, minus, new, over, plus, times};
use std::cmp::Ordering;

const PARTS: i128 = 100;
const CYCLE: (i128, i128) = (60, 100);
const SPEEDS: (i128, i128) = (40, 60);
const STEPS: u32 = 10_000;
const ZERO: Frac = Frac { num: 0, den: 1 };
const ONE: Frac = Frac { num: 1, den: 1 };

fn fraction(num: i128, den: i128) -> Frac {
    new(num, den).expect("the number fits")
}

fn neg(number: Frac) -> Frac {
    Frac { num: -number.num, ..number }
}

fn compare(left: Frac, right: Frac) -> Ordering {
    match (left.num.checked_mul(right.den), right.num.checked_mul(left.den)) {
        (Some(first), Some(second)) => first.cmp(&second),
        _ => compare_wide(left, right),
    }
}

/// By the whole parts, and then the other way round by the reciprocals of what is left.
fn compare_wide(left: Frac, right: Frac) -> Ordering {
    let (first, second) = (left.num.div_euclid(left.den), right.num.div_euclid(right.den));
    let (left_rest, right_rest) = (left.num.rem_euclid(left.den), right.num.rem_euclid(right.den));
    first.cmp(&second).then_with(|| match (left_rest, right_rest) {
        (0, _) | (_, 0) => left_rest.cmp(&right_rest),
        _ => compare_wide(Frac { num: right.den, den: right_rest }, Frac { num: left.den, den: left_rest }),
    })
}

/// Signal `i` of an artery, counted from 1.
struct Signal {
    red: i128,
    left_out: i128,
    left_in: i128,
}

struct Artery {
    signals: Vec<Signal>,
    distances: Vec<i128>,
    /// The root's span of block sums of each link.
    spans: Vec<(i128, i128)>,
}

impl Signal {
    fn new(place: i128) -> Signal {
        Signal {
            red: 30 + 7 * place % 21,
            left_out: 5 * (place % 3),
            left_in: 5 * ((place + 1) % 3),
        }
    }

    fn green_out(&self) -> i128 {
        PARTS - self.red - self.left_in
    }

    fn green_in(&self) -> i128 {
        PARTS - self.red - self.left_out
    }

    /// All patterns are allowed, so the least shift is 0.
    fn greatest_shift(&self) -> i128 {
        self.left_out + self.left_in
    }
}

/// The seconds of a distance in metres at a speed in kilometres an hour.
fn run(distance: i128, speed: i128) -> Frac {
    fraction(18 * distance, 5 * speed)
}

/// Parts of the cycle and the same run both ways.
fn sum(parts: i128, seconds: Frac, cycle: i128) -> Frac {
    let share = over(seconds, fraction(cycle, 1)).expect("a share fits");
    let both = plus(share, share).expect("two shares fit");
    plus(fraction(parts, PARTS), both).expect("a block sum fits")
}

fn span(here: &Signal, next: &Signal, distance: i128) -> (i128, i128) {
    let reds = here.red - next.red;
    let low = reds - next.green_out() - next.green_in() - next.greatest_shift();
    let high = reds + here.green_out() + here.green_in() + here.greatest_shift();
    let least = sum(low, run(distance, SPEEDS.1), CYCLE.1);
    let most = sum(high, run(distance, SPEEDS.0), CYCLE.0);
    (-(-least.num).div_euclid(least.den), most.num.div_euclid(most.den))
}

impl Artery {
    fn new(count: usize) -> Artery {
        let signals: Vec<Signal> = (1..=count as i128).map(Signal::new).collect();
        let distances: Vec<i128> = (1..count as i128).map(|place| 200 + 10 * (13 * place % 41)).collect();
        let spans = signals.windows(2).zip(&distances).map(|(ends, d)| span(&ends[0], &ends[1], *d)).collect();
        Artery { signals, distances, spans }
    }

    fn count(&self) -> usize {
        self.signals.len()
    }

    fn width(&self) -> usize {
        5 * self.count() + 1
    }

    fn height(&self) -> usize {
        10 * self.count() - 4
    }
}

/// The columns, with signals and links counted from 0.
struct Columns(usize);

impl Columns {
    const BAND_OUT: usize = 0;
    const BAND_IN: usize = 1;
    const FREQUENCY: usize = 2;

    fn wait_out(&self, signal: usize) -> usize {
        3 + signal
    }

    fn wait_in(&self, signal: usize) -> usize {
        3 + self.0 + signal
    }

    fn run_out(&self, link: usize) -> usize {
        3 + 2 * self.0 + link
    }

    fn run_in(&self, link: usize) -> usize {
        2 + 3 * self.0 + link
    }

    fn shift(&self, signal: usize) -> usize {
        1 + 4 * self.0 + signal
    }

    /// The columns of a link's block sum, with their signs.
    fn block(&self, link: usize) -> [(usize, i128); 8] {
        let next = link + 1;
        [
            (self.wait_out(link), 1),
            (self.wait_in(link), 1),
            (self.wait_out(next), -1),
            (self.wait_in(next), -1),
            (self.run_out(link), 1),
            (self.run_in(link), 1),
            (self.shift(link), 1),
            (self.shift(next), -1),
        ]
    }
}

struct Tableau {
    /// Each row has its bound last.
    lines: Vec<Vec<Frac>>,
    goal: Vec<Frac>,
    held: Vec<Frac>,
    spare: Vec<Frac>,
    basic: Vec<usize>,
    standing: Vec<usize>,
    /// How many rows are loaded.
    loaded: usize,
}

/// The place of the first refused operation does not matter here.
struct Wide;

fn clear(row: &mut [Frac], divided: &[Frac], place: usize, pivot: Frac) -> Result<(), Wide> {
    let factor = row[place];
    if factor.num == 0 {
        return Ok(());
    }
    for (col, (cell, by)) in row.iter_mut().zip(divided).enumerate() {
        if by.num != 0 && col != place {
            *cell = minus(*cell, times(factor, *by).ok_or(Wide)?).ok_or(Wide)?;
        }
    }
    row[place] = neg(over(factor, pivot).ok_or(Wide)?);
    Ok(())
}

impl Tableau {
    fn new(rows: usize, width: usize) -> Tableau {
        Tableau {
            lines: vec![vec![ZERO; width + 1]; rows],
            goal: vec![ZERO; width + 1],
            held: vec![ZERO; width + 1],
            spare: vec![ZERO; width + 1],
            basic: vec![0; rows],
            standing: vec![0; width],
            loaded: 0,
        }
    }

    fn width(&self) -> usize {
        self.standing.len()
    }

    fn load(&mut self, bound: Frac, cells: &[(usize, Frac)]) {
        let row = self.loaded;
        let width = self.width();
        self.lines[row].fill(ZERO);
        for (column, number) in cells {
            self.lines[row][*column] = *number;
        }
        self.lines[row][width] = bound;
        self.basic[row] = width + row;
        self.loaded += 1;
    }

    fn load_goal(&mut self, cells: &[(usize, Frac)]) {
        self.goal.fill(ZERO);
        for (column, number) in cells {
            self.goal[*column] = neg(*number);
        }
        for (column, variable) in self.standing.iter_mut().enumerate() {
            *variable = column;
        }
    }

    fn pivot(&mut self, row: usize, place: usize) -> Result<(), Wide> {
        let pivot = self.lines[row][place];
        let own = over(ONE, pivot).ok_or(Wide)?;
        for (col, cell) in self.lines[row].iter_mut().enumerate() {
            *cell = if col == place { own } else { over(*cell, pivot).ok_or(Wide)? };
        }
        self.held.copy_from_slice(&self.lines[row]);
        self.spare.copy_from_slice(&self.goal);
        clear(&mut self.spare, &self.held, place, pivot)?;
        for (other, line) in self.lines.iter_mut().enumerate() {
            if other != row {
                clear(line, &self.held, place, pivot)?;
            }
        }
        std::mem::swap(&mut self.goal, &mut self.spare);
        std::mem::swap(&mut self.basic[row], &mut self.standing[place]);
        Ok(())
    }

    /// The row with the least basic variable among those with a negative bound.
    fn chosen_row(&self) -> Option<usize> {
        let width = self.width();
        (0..self.lines.len())
            .filter(|row| self.lines[*row][width].num < 0)
            .min_by_key(|row| self.basic[*row])
    }

    /// The place with the least ratio, of equal ones the least variable.
    fn chosen_place(&self, row: usize) -> Result<Option<usize>, Wide> {
        let mut best: Option<(usize, Frac)> = None;
        for place in 0..self.width() {
            let cell = self.lines[row][place];
            if cell.num >= 0 {
                continue;
            }
            let ratio = over(self.goal[place], neg(cell)).ok_or(Wide)?;
            let better = best.is_none_or(|(other, least)| {
                compare(ratio, least).then(self.standing[place].cmp(&self.standing[other])).is_lt()
            });
            if better {
                best = Some((place, ratio));
            }
        }
        Ok(best.map(|(place, _)| place))
    }

    /// Whether a pivot was made.
    fn step(&mut self) -> Result<bool, Wide> {
        let Some(row) = self.chosen_row() else {
            return Ok(false);
        };
        let Some(place) = self.chosen_place(row)? else {
            return Ok(false);
        };
        self.pivot(row, place)?;
        Ok(true)
    }

    fn load_rows(&mut self, artery: &Artery) {
        let count = artery.count();
        let links = count - 1;
        let at = Columns(count);
        let part = |parts: i128| fraction(parts, PARTS);
        self.loaded = 0;
        for (i, signal) in artery.signals.iter().enumerate() {
            self.load(part(signal.green_out()), &[(at.wait_out(i), ONE), (Columns::BAND_OUT, ONE)]);
        }
        for (i, signal) in artery.signals.iter().enumerate() {
            self.load(part(signal.green_in()), &[(at.wait_in(i), ONE), (Columns::BAND_IN, ONE)]);
        }
        for column in [Columns::run_out, Columns::run_in] {
            for i in 0..links {
                let low = run(artery.distances[i], SPEEDS.1);
                self.load(ZERO, &[(Columns::FREQUENCY, low), (column(&at, i), neg(ONE))]);
            }
        }
        for column in [Columns::run_out, Columns::run_in] {
            for i in 0..links {
                let high = run(artery.distances[i], SPEEDS.0);
                self.load(ZERO, &[(Columns::FREQUENCY, neg(high)), (column(&at, i), ONE)]);
            }
        }
        self.load(fraction(-1, CYCLE.1), &[(Columns::FREQUENCY, neg(ONE))]);
        self.load(fraction(1, CYCLE.0), &[(Columns::FREQUENCY, ONE)]);
        let constant = |i: usize| artery.signals[i].red - artery.signals[i + 1].red;
        for i in 0..links {
            let cells = at.block(i).map(|(column, sign)| (column, fraction(-sign, 1)));
            self.load(part(constant(i) - PARTS * artery.spans[i].0), &cells);
        }
        for i in 0..links {
            let cells = at.block(i).map(|(column, sign)| (column, fraction(sign, 1)));
            self.load(part(PARTS * artery.spans[i].1 - constant(i)), &cells);
        }
        for i in 0..count {
            self.load(ZERO, &[(at.shift(i), neg(ONE))]);
        }
        for (i, signal) in artery.signals.iter().enumerate() {
            self.load(part(signal.greatest_shift()), &[(at.shift(i), ONE)]);
        }
    }

    /// The rows, the goal and the two pivots that bring the bands in.
    fn reset(&mut self, artery: &Artery) -> Result<(), Wide> {
        self.load_rows(artery);
        self.load_goal(&[(Columns::BAND_OUT, ONE), (Columns::BAND_IN, ONE)]);
        self.pivot(0, Columns::BAND_OUT)?;
        self.pivot(artery.count(), Columns::BAND_IN)
    }

    /// The pivots to the end, or to the first refused number.
    fn solve(&mut self) -> u32 {
        (0..STEPS).find(|_| !self.step().unwrap_or(false)).unwrap_or(STEPS)
    }
}

fn main() {
    let words: Vec<String> = std::env::args().skip(1).collect();
    let [signals, rounds] = words.as_slice() else {
        eprintln!("usage: pivots SIGNALS ROUNDS");
        std::process::exit(2);
    };
    let count: usize = signals.parse().expect("a number of signals");
    let rounds: u32 = rounds.parse().expect("a number of rounds");
    let artery = Artery::new(count);
    let mut tableau = Tableau::new(artery.height(), artery.width());
    let mut pivots: u64 = 0;
    for _ in 0..rounds {
        if tableau.reset(&artery).is_ok() {
            pivots += u64::from(tableau.solve());
        }
    }
    println!("{pivots}");
}

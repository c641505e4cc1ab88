//! Games of two sides that choose at once, with few choices: a linear program for each.

/// The most choices that a side is ever offered.
pub const CHOICES: usize = 9;
/// The columns of a tableau: the choices of side 2, a slack for each choice of side 1, and the bound.
const WIDTH: usize = 2 * CHOICES + 1;
/// Entries below this count as 0 in the simplex method.
const SMALL: f64 = 1e-12;

/// A play of a matrix game by both sides, with what it secures.
#[derive(Clone, Copy, Debug, PartialEq)]
pub struct Play {
    /// The least mean that `one` gives side 1, whatever side 2 chooses: a lower bound of the value.
    pub low: f64,
    /// The greatest mean that side 1 gets against `two`: an upper bound of the value.
    pub high: f64,
    /// How often side 1 makes each of its choices.
    pub one: [f64; CHOICES],
    /// How often side 2 makes each of its choices.
    pub two: [f64; CHOICES],
}

/// The best play of a game, by the simplex method with Bland's rule.
///
/// `entries` has a row of `columns` numbers from 0 to 1 for each choice of side 1: what side 1 gets. The bounds are computed from the plays
/// found, so they hold whether or not these are the best; rounding is not in them.
///
/// ```
/// // Rock, paper, scissors: each a third of the time.
/// let play = gen1_search::matrix::best_play(&[0.5, 0.0, 1.0, 1.0, 0.5, 0.0, 0.0, 1.0, 0.5], 3);
/// assert!((play.low - 0.5).abs() < 1e-12 && (play.high - 0.5).abs() < 1e-12);
/// assert!((play.one[0] - 1.0 / 3.0).abs() < 1e-12);
/// ```
///
/// # Panics
///
/// `columns` is not from 1 to 9, or `entries` is not one to nine whole rows.
#[must_use]
pub fn best_play(entries: &[f64], columns: usize) -> Play {
    let rows = entries.len() / columns;
    assert!((1..=CHOICES).contains(&rows) && (1..=CHOICES).contains(&columns));
    assert!(rows * columns == entries.len());
    pure(entries, columns).unwrap_or_else(|| {
        let (one, two) = Tableau::new(entries, columns).solved();
        secured(entries, columns, one, two)
    })
}

/// The play in which each side has one best choice, if the game has one.
fn pure(entries: &[f64], columns: usize) -> Option<Play> {
    let worst = |row: &[f64]| row.iter().copied().fold(f64::INFINITY, f64::min);
    let column_best = |at: usize| {
        let column = entries[at..].iter().step_by(columns);
        column.copied().fold(f64::NEG_INFINITY, f64::max)
    };
    let (mut row, mut low) = (0, f64::NEG_INFINITY);
    for (at, entries) in entries.chunks_exact(columns).enumerate() {
        let least = worst(entries);
        if least > low {
            (row, low) = (at, least);
        }
    }
    let (mut column, mut high) = (0, f64::INFINITY);
    for at in 0..columns {
        let greatest = column_best(at);
        if greatest < high {
            (column, high) = (at, greatest);
        }
    }
    (low >= high).then(|| {
        let (mut one, mut two) = ([0.0; CHOICES], [0.0; CHOICES]);
        (one[row], two[column]) = (1.0, 1.0);
        Play {
            low,
            high,
            one,
            two,
        }
    })
}

/// What two plays secure.
fn secured(entries: &[f64], columns: usize, one: [f64; CHOICES], two: [f64; CHOICES]) -> Play {
    let (mut low, mut high) = (f64::INFINITY, f64::NEG_INFINITY);
    for at in 0..columns {
        let column = entries[at..].iter().step_by(columns);
        low = low.min(column.zip(&one).map(|(entry, share)| entry * share).sum());
    }
    for row in entries.chunks_exact(columns) {
        high = high.max(
            row.iter()
                .zip(&two)
                .map(|(entry, share)| entry * share)
                .sum(),
        );
    }
    Play {
        low,
        high,
        one,
        two,
    }
}

/// The linear program of a game whose entries, plus 1, are positive.
///
/// Side 2 gives its choices weights so that no choice of side 1 is worth more than 1. The greatest sum of such weights is 1 / value, and the
/// weights over their sum are side 2's best play. The prices of the rows are that of side 1.
struct Tableau {
    lines: [[f64; WIDTH]; CHOICES],
    goal: [f64; WIDTH],
    basis: [usize; CHOICES],
    rows: usize,
    columns: usize,
}

impl Tableau {
    fn new(entries: &[f64], columns: usize) -> Self {
        let rows = entries.len() / columns;
        let mut lines = [[0.0; WIDTH]; CHOICES];
        let (mut goal, mut basis) = ([0.0; WIDTH], [0; CHOICES]);
        for (at, row) in entries.chunks_exact(columns).enumerate() {
            for (place, entry) in lines[at].iter_mut().zip(row) {
                *place = entry + 1.0;
            }
            lines[at][columns + at] = 1.0;
            lines[at][WIDTH - 1] = 1.0;
            basis[at] = columns + at;
        }
        goal[..columns].fill(-1.0);
        Tableau {
            lines,
            goal,
            basis,
            rows,
            columns,
        }
    }

    /// The plays of both sides.
    fn solved(mut self) -> ([f64; CHOICES], [f64; CHOICES]) {
        // Bland's rule ends without this bound, but for rounding.
        for _ in 0..1000 {
            let width = self.rows + self.columns;
            let Some(enters) = (0..width).find(|at| self.goal[*at] < -SMALL) else {
                break;
            };
            let Some(leaves) = self.leaving(enters) else {
                break;
            };
            self.pivot(enters, leaves);
        }
        let (mut one, mut two) = ([0.0; CHOICES], [0.0; CHOICES]);
        for (line, choice) in self.lines.iter().zip(self.basis).take(self.rows) {
            if choice < self.columns {
                two[choice] = line[WIDTH - 1];
            }
        }
        one[..self.rows].copy_from_slice(&self.goal[self.columns..][..self.rows]);
        (shares(one, self.rows), shares(two, self.columns))
    }

    /// The row that bounds the entering column first; of equal ones that with the first variable.
    fn leaving(&self, enters: usize) -> Option<usize> {
        let mut found: Option<(usize, f64)> = None;
        for at in (0..self.rows).filter(|at| self.lines[*at][enters] > SMALL) {
            let ratio = self.lines[at][WIDTH - 1] / self.lines[at][enters];
            let is_first = found.is_none_or(|(best, least)| {
                ratio < least || (ratio <= least && self.basis[at] < self.basis[best])
            });
            if is_first {
                found = Some((at, ratio));
            }
        }
        found.map(|(at, _)| at)
    }

    fn pivot(&mut self, enters: usize, leaves: usize) {
        self.basis[leaves] = enters;
        let by = self.lines[leaves][enters];
        let line = self.lines[leaves].map(|entry| entry / by);
        self.lines[leaves] = line;
        let others = self.lines[..self.rows].iter_mut().enumerate();
        let others = others.filter(|(at, _)| *at != leaves).map(|(_, it)| it);
        for other in others.chain([&mut self.goal]) {
            let times = other[enters];
            for (entry, pivot) in other.iter_mut().zip(line) {
                *entry -= times * pivot;
            }
        }
    }
}

/// Weights divided by their sum; without a positive one all are equal.
fn shares(mut weights: [f64; CHOICES], count: usize) -> [f64; CHOICES] {
    weights.iter_mut().for_each(|it| *it = it.max(0.0));
    let sum: f64 = weights.iter().sum();
    if sum > 0.0 {
        return weights.map(|it| it / sum);
    }
    weights[..count].fill(1.0 / count as f64);
    weights
}

//! What a call costs, and the rounds in which it is measured.

use std::time::{Duration, Instant};

use crate::clock;
use crate::counter::Cycles;

/// What the costs of a table are of.
#[derive(Clone, Copy)]
pub enum Per {
    Byte,
    Call,
    Unit,
}

impl Per {
    /// How many bytes or units these runs work on, or how many calls they make.
    pub fn many(self, runs: usize, size: usize) -> usize {
        match self {
            Per::Byte | Per::Unit => runs * size,
            Per::Call => runs,
        }
    }

    /// The heads of two cells.
    pub fn heads(self) -> String {
        match self {
            Per::Byte => self.cells("ns/B", "c/B"),
            Per::Call | Per::Unit => self.cells("ns", "c"),
        }
    }

    /// Two cells; those of a call or a unit have greater numbers.
    fn cells(self, nanoseconds: &str, cycles: &str) -> String {
        match self {
            Per::Byte => format!("  {nanoseconds:>8}{cycles:>7}"),
            Per::Call | Per::Unit => format!("  {nanoseconds:>8}{cycles:>9}"),
        }
    }
}

/// Nanoseconds and, where they are counted, cycles, a byte, a call or a unit: the least of the
/// measurements so far.
#[derive(Clone, Copy)]
pub struct Cost {
    pub nanoseconds: f64,
    pub cycles: Option<f64>,
}

impl Cost {
    pub const NONE: Cost = Cost {
        nanoseconds: f64::INFINITY,
        cycles: None,
    };

    /// Runs what works on so many bytes or units, or makes so many calls, and adds what it cost for one.
    pub fn measure(&mut self, counter: &mut Option<Cycles>, many: usize, run: impl FnOnce()) {
        let first = counter.as_mut().and_then(Cycles::now);
        let start = clock::now();
        run();
        let time = clock::now() - start;
        let last = counter.as_mut().and_then(Cycles::now);
        let many = many as f64;
        let cycles = first
            .zip(last)
            .map(|(first, last)| (last - first) as f64 / many);
        self.add(time.as_nanos() as f64 / many, cycles);
    }

    fn add(&mut self, nanoseconds: f64, cycles: Option<f64>) {
        self.nanoseconds = self.nanoseconds.min(nanoseconds);
        if let Some(cycles) = cycles {
            self.cycles = Some(self.cycles.map_or(cycles, |least| least.min(cycles)));
        }
    }

    /// Two cells of a table's line.
    pub fn cells(&self, per: Per) -> String {
        let digits = match per {
            Per::Byte => 2,
            Per::Call | Per::Unit => 0,
        };
        let cell = |number: f64| match number.is_finite() {
            true => format!("{number:.digits$}"),
            false => "-".to_string(),
        };
        let cycles = self.cycles.map_or("-".to_string(), cell);
        per.cells(&cell(self.nanoseconds), &cycles)
    }
}

/// Rounds over all lines of a table and all contestants: fewer than the most where the time is up.
#[derive(Clone, Copy)]
pub struct Rounds {
    pub most: usize,
    pub fewest: usize,
    pub time: Duration,
}

impl Rounds {
    pub const USUAL: Rounds = Rounds {
        most: 200,
        fewest: 3,
        time: Duration::from_secs(4),
    };

    /// Runs the rounds, and returns how many.
    pub fn run(self, mut round: impl FnMut()) -> usize {
        let start = Instant::now();
        for rounds in 0..self.most {
            if rounds >= self.fewest && start.elapsed() > self.time {
                return rounds;
            }
            round();
        }
        self.most
    }
}

//! A table of costs: on each line all contestants take turns, and the library is held against them.

use std::hint::black_box;
use std::iter::zip;

use crate::cost::{Cost, Per, Rounds};
use crate::counter::Cycles;

/// The suites that are measured, with their names.
pub const SUITES: [(&str, (u8, u8)); 2] = [("Scream 10", (1, 10)), ("iScream 12", (2, 12))];

/// One of those who are measured, by what it does with a line's data.
pub struct Contestant<D> {
    name: &'static str,
    about: String,
    /// The size, about, of one measurement.
    size: usize,
    /// The greatest size of what it is measured on.
    most: usize,
    run: fn(&mut D),
    /// Whether it does all that the library does, and leaves the same.
    whole: bool,
    /// Digits of the library's ratio to it.
    digits: usize,
}

impl<D> Contestant<D> {
    fn new(name: &'static str, about: String, size: usize, run: fn(&mut D)) -> Contestant<D> {
        Contestant {
            name,
            about,
            size,
            most: usize::MAX,
            run,
            whole: true,
            digits: 3,
        }
    }

    pub fn library(size: usize, run: fn(&mut D)) -> Contestant<D> {
        Contestant::new("library", "the proved library".to_string(), size, run)
    }

    pub fn calls(size: usize, run: fn(&mut D)) -> Contestant<D> {
        let about = "its function on many blocks alone, on as many as the call list has";
        Contestant::calls_by(about, size, run)
    }

    /// Calls of the cipher alone, made as it is said.
    pub fn calls_by(about: &str, size: usize, run: fn(&mut D)) -> Contestant<D> {
        Contestant {
            whole: false,
            ..Contestant::new("calls", about.to_string(), size, run)
        }
    }

    /// Checking the same book, of which the library's other call is the first part.
    pub fn check(about: &str, size: usize, run: fn(&mut D)) -> Contestant<D> {
        Contestant {
            whole: false,
            ..Contestant::new("check", about.to_string(), size, run)
        }
    }

    pub fn reference(more: &str, size: usize, run: fn(&mut D)) -> Contestant<D> {
        let about = format!("the plain second implementation in Rust{more}");
        Contestant {
            digits: 4,
            ..Contestant::new("reference", about, size, run)
        }
    }

    pub fn baseline(more: &str, size: usize, run: fn(&mut D)) -> Contestant<D> {
        let about = format!("bench/baseline.c with -O3{more}");
        Contestant::new("C", about, size, run)
    }

    /// The same, but on lines of a greater size measured on their lesser data, or not at all.
    pub fn up_to(self, most: usize) -> Contestant<D> {
        Contestant { most, ..self }
    }

    /// Measures it on a line once.
    fn measure(&self, per: Per, line: &mut Line<D>, cost: &mut Cost, counter: &mut Option<Cycles>) {
        let Some((size, data)) = line.data_for(self) else {
            return;
        };
        let runs = self.size.div_ceil(size);
        cost.measure(counter, per.many(runs, size), || {
            for _ in 0..runs {
                (self.run)(black_box(data));
            }
        });
        black_box(data);
    }
}

/// A line, and the data that it is measured on.
pub struct Line<D> {
    /// What stands before the costs.
    pub cells: String,
    /// Its size: the bytes that one run works on, or the units where the costs are of those.
    pub size: usize,
    /// Whether the library is held against the last line that is not a later one, too.
    pub later: bool,
    pub data: D,
    /// Data of a lesser size, and that size, for those who are not measured on the line's own.
    pub less: Option<(usize, D)>,
    /// How many turns it has in a round.
    pub turns: usize,
}

impl<D> Line<D> {
    /// What a contestant is measured on, and its size.
    fn data_for(&mut self, contestant: &Contestant<D>) -> Option<(usize, &mut D)> {
        if self.size <= contestant.most {
            return Some((self.size, &mut self.data));
        }
        self.less.as_mut().map(|(size, data)| (*size, data))
    }
}

/// What is measured, and what is said of it.
pub struct Table<D> {
    pub title: &'static str,
    /// The library is the first.
    pub contestants: Vec<Contestant<D>>,
    /// Notes on what is done, and on the numbers.
    pub notes: Vec<String>,
    pub on_numbers: Vec<&'static str>,
    pub per: Per,
    pub rounds: Rounds,
    /// The head of what stands before the costs.
    pub head: String,
    /// The head of the ratio that later lines have, where there are such.
    pub later: Option<[&'static str; 2]>,
    pub lines: Vec<Line<D>>,
    /// What a run leaves in the data.
    pub left: fn(&D) -> &[u8],
}

/// What is said of every number.
pub fn least_of(rounds: usize) -> String {
    let clock = "by the time that this program itself has run";
    format!("Each number is the least of {rounds} rounds, in which all took turns, {clock}.")
}

/// A column of the library's ratios.
struct Ratio {
    head: [&'static str; 2],
    digits: usize,
    /// The contestant's place; none is the library itself on a line before.
    to: Option<usize>,
}

impl<D: Clone> Table<D> {
    /// Measures all lines in turns, and prints the table.
    pub fn print(mut self, counter: &mut Option<Cycles>) {
        for line in &self.lines {
            self.assert_agreement(line);
        }
        let (rounds, costs) = self.measured(counter);
        self.print_legend(rounds);
        self.print_head();
        let mut earlier = Cost::NONE;
        for (line, costs) in zip(&self.lines, &costs) {
            if !line.later {
                earlier = costs[0];
            }
            self.print_line(line, costs, earlier);
        }
    }

    /// Sees that those who do the same leave the same on this line, or on its lesser data.
    fn assert_agreement(&self, line: &Line<D>) {
        let (size, data) = match &line.less {
            Some((size, data)) => (*size, data),
            None => (line.size, &line.data),
        };
        let mut done = Vec::new();
        let whole = |one: &&Contestant<D>| one.whole && size <= one.most;
        for contestant in self.contestants.iter().filter(whole) {
            let mut data = data.clone();
            (contestant.run)(&mut data);
            done.push(data);
        }
        for two in done.windows(2) {
            assert!((self.left)(&two[0]) == (self.left)(&two[1]));
        }
    }

    /// The rounds, and each line's costs, of the contestants in their order.
    fn measured(&mut self, counter: &mut Option<Cycles>) -> (usize, Vec<Vec<Cost>>) {
        let mut costs = vec![vec![Cost::NONE; self.contestants.len()]; self.lines.len()];
        let rounds = self.rounds.run(|| {
            for (line, costs) in zip(&mut self.lines, &mut costs) {
                for _ in 0..line.turns {
                    let contestants = zip(&self.contestants, &mut *costs);
                    contestants.for_each(|(one, cost)| one.measure(self.per, line, cost, counter));
                }
            }
        });
        (rounds, costs)
    }

    fn print_legend(&self, rounds: usize) {
        println!("{}", self.title);
        for Contestant { name, about, .. } in &self.contestants {
            println!("  {name:<9}  {about}");
        }
        for note in &self.notes {
            println!("{note}");
        }
        println!("{}", least_of(rounds));
        for note in &self.on_numbers {
            println!("{note}");
        }
        println!();
    }

    fn print_head(&self) {
        let names = self.contestants.iter().map(|one| one.name.to_string());
        self.print_row("", names, |ratio| ratio.head[0].to_string());
        let heads = self.contestants.iter().map(|_| self.per.heads());
        self.print_row(&self.head, heads, |ratio| ratio.head[1].to_string());
    }

    fn print_line(&self, line: &Line<D>, costs: &[Cost], earlier: Cost) {
        let cells = costs.iter().map(|cost| cost.cells(self.per));
        self.print_row(&line.cells, cells, |ratio| match ratio.to {
            None if !line.later => "-".to_string(),
            Some(i) if costs[i].nanoseconds.is_infinite() => "-".to_string(),
            to => {
                let other = to.map_or(earlier, |i| costs[i]);
                let value = costs[0].nanoseconds / other.nanoseconds;
                format!("{value:.digits$}", digits = ratio.digits)
            }
        });
    }

    fn print_row(
        &self,
        first: &str,
        costs: impl Iterator<Item = String>,
        ratio: impl Fn(&Ratio) -> String,
    ) {
        print!("{first:<width$}", width = self.head.len());
        for cost in costs {
            print!("{cost:>width$}", width = self.per.heads().len());
        }
        for column in self.ratios() {
            let width = column.head.map(str::len).into_iter().max().unwrap_or(0);
            print!("  {:>width$}", ratio(&column));
        }
        println!();
    }

    /// The ratios to the other contestants, and second, where there is one, that of later lines.
    fn ratios(&self) -> Vec<Ratio> {
        let others = self.contestants.iter().enumerate().skip(1);
        let ratio = |(i, contestant): (usize, &Contestant<D>)| Ratio {
            head: ["library/", contestant.name],
            digits: contestant.digits,
            to: Some(i),
        };
        let mut ratios: Vec<Ratio> = others.map(ratio).collect();
        if let Some(head) = self.later {
            let (digits, to) = (3, None);
            ratios.insert(1, Ratio { head, digits, to });
        }
        ratios
    }
}

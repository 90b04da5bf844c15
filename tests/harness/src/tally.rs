//! What the compared cases met, so that a generator that has lost its variety is noticed.

use crate::case::{Case, Kind};
use crate::comparison::Comparison;

pub struct Tally {
    cases: usize,
    lines: usize,
    /// How often each event was met.
    times: Vec<usize>,
    /// In how many cases each event was met.
    in_cases: Vec<usize>,
    /// Cases of each kind.
    kinds: Vec<usize>,
}

impl Tally {
    pub fn new<K: Kind>(comparison: &Comparison<K>) -> Tally {
        let events = comparison.events.len();
        Tally {
            cases: 0,
            lines: 0,
            times: vec![0; events],
            in_cases: vec![0; events],
            kinds: vec![0; comparison.kinds.len()],
        }
    }

    /// Counts one case of the kind at this place in the table.
    pub fn count(&mut self, place: usize, case: &impl Case) {
        let mut times = vec![0; self.times.len()];
        self.lines += case.count(&mut times);
        self.cases += 1;
        self.kinds[place] += 1;
        add_all(&mut self.times, &times);
        times.iter_mut().for_each(|count| *count = (*count).min(1));
        add_all(&mut self.in_cases, &times);
    }

    pub fn add(&mut self, other: &Tally) {
        self.cases += other.cases;
        self.lines += other.lines;
        add_all(&mut self.times, &other.times);
        add_all(&mut self.in_cases, &other.in_cases);
        add_all(&mut self.kinds, &other.kinds);
    }

    pub fn print<K: Kind>(&self, comparison: &Comparison<K>) {
        println!(
            "{} cases of {} kinds compared, {} {}",
            self.cases,
            comparison.kinds.len(),
            self.lines,
            comparison.lines
        );
        let width = 1 + comparison.events.iter().map(|event| event.len()).max().unwrap_or(0);
        for ((event, times), cases) in comparison.events.iter().zip(&self.times).zip(&self.in_cases)
        {
            println!("{event:>width$}: {times:>7} times in {cases:>4} cases");
        }
    }

    /// What was met too seldom.
    pub fn shortcomings<K: Kind>(&self, comparison: &Comparison<K>) -> Vec<String> {
        let mut lacking = Vec::new();
        let floor = comparison.floor;
        for (event, &cases) in comparison.events.iter().zip(&self.in_cases) {
            if cases < floor {
                lacking.push(format!("{event}: in fewer than {floor} cases"));
            }
        }
        for (kind, &count) in comparison.kinds.iter().zip(&self.kinds) {
            if count < kind.least() {
                lacking.push(format!("{}: fewer cases than {}", kind.name(), kind.least()));
            }
        }
        lacking
    }
}

fn add_all(sums: &mut [usize], more: &[usize]) {
    for (sum, count) in sums.iter_mut().zip(more) {
        *sum += count;
    }
}

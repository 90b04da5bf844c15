//! The comparison itself: all cases, by a few workers, and what is said at the end.

use crate::case::{Case, Kind};
use crate::program::{self, Ending};
use crate::tally::Tally;
use generator::random::Random;
use std::error::Error;
use std::path::{Path, PathBuf};
use std::process::ExitCode;
use std::sync::atomic::{AtomicUsize, Ordering::Relaxed};
use std::{env, fs, thread};

const DEFAULT_SEED: u64 = 1;
/// Failing cases beyond these are counted, but not kept.
const MOST_KEPT: usize = 50;
/// A program that has to be stopped this often is given up.
const MOST_STOPPED: usize = 3;

/// A program's comparison with the model.
pub struct Comparison<K: 'static> {
    /// Its own name, for what it says of itself.
    pub name: &'static str,
    /// All kinds of cases, in the order in which they are taken.
    pub kinds: &'static [K],
    /// So many cases, if no other number is asked for.
    pub cases: usize,
    /// What is counted of a case, in the order of `Case::count`.
    pub events: &'static [&'static str],
    /// An event met in fewer cases than this fails the run.
    pub floor: usize,
    /// What the printed lines of accepted cases are.
    pub lines: &'static str,
}

struct Options {
    program: PathBuf,
    folder: PathBuf,
    seed: u64,
    cases: usize,
}

/// What the workers share.
#[derive(Default)]
struct Progress {
    next: AtomicUsize,
    failed: AtomicUsize,
    stopped: AtomicUsize,
}

type Fallible<T> = Result<T, Box<dyn Error + Send + Sync>>;

impl<K: Kind> Comparison<K> {
    /// The whole program of a comparison: `NAME PROGRAM FOLDER [SEED [CASES]]`.
    pub fn main(&self) -> ExitCode {
        match self.options().and_then(|options| self.compare(&options)) {
            Ok(true) => ExitCode::SUCCESS,
            Ok(false) => ExitCode::FAILURE,
            Err(reason) => {
                eprintln!("{}: {reason}", self.name);
                ExitCode::FAILURE
            }
        }
    }

    fn options(&self) -> Fallible<Options> {
        let mut arguments = env::args().skip(1);
        let usage = || format!("usage: {} PROGRAM FOLDER [SEED [CASES]]", self.name);
        let program = arguments.next().ok_or_else(usage)?;
        let folder = arguments.next().ok_or("no working folder given")?;
        let seed = arguments.next().map_or(Ok(DEFAULT_SEED), |text| text.parse())?;
        let cases = arguments.next().map_or(Ok(self.cases), |text| text.parse())?;
        // absolute, because the program is run in other folders
        let program =
            fs::canonicalize(&program).map_err(|reason| format!("{program}: {reason}"))?;
        Ok(Options { program, folder: folder.into(), seed, cases })
    }

    /// Whether all cases were alike and varied enough.
    fn compare(&self, options: &Options) -> Fallible<bool> {
        let failed = options.folder.join("failed");
        if failed.exists() {
            fs::remove_dir_all(&failed)?;
        }
        fs::create_dir_all(&failed)?;
        let progress = Progress::default();
        let tally = self.work_all(options, &progress)?;
        tally.print(self);
        let failed = progress.failed.into_inner();
        println!("{failed} cases differ");
        let given_up = progress.stopped.into_inner() >= MOST_STOPPED;
        if given_up {
            println!("given up: the program had to be stopped {MOST_STOPPED} times");
            return Ok(false);
        }
        let lacking = tally.shortcomings(self);
        lacking.iter().for_each(|what| println!("too little variety: {what}"));
        Ok(failed == 0 && lacking.is_empty())
    }

    /// All workers, and what they counted together.
    fn work_all(&self, options: &Options, progress: &Progress) -> Fallible<Tally> {
        let workers = thread::available_parallelism()?.get().min(2);
        let tallies = thread::scope(|scope| {
            let started: Vec<_> = (0..workers)
                .map(|number| scope.spawn(move || self.work(options, progress, number)))
                .collect();
            started
                .into_iter()
                .map(|worker| worker.join().expect("a worker ends"))
                .collect::<Fallible<Vec<Tally>>>()
        })?;
        let mut tally = Tally::new(self);
        tallies.iter().for_each(|part| tally.add(part));
        Ok(tally)
    }

    /// Takes one case after the other until none is left.
    fn work(&self, options: &Options, progress: &Progress, worker: usize) -> Fallible<Tally> {
        let scratch = options.folder.join(format!("scratch-{worker}"));
        let mut tally = Tally::new(self);
        loop {
            let number = progress.next.fetch_add(1, Relaxed);
            if number >= options.cases || progress.stopped.load(Relaxed) >= MOST_STOPPED {
                return Ok(tally);
            }
            self.compare_one(options, progress, &mut tally, &scratch, number)?;
        }
    }

    fn compare_one(
        &self,
        options: &Options,
        progress: &Progress,
        tally: &mut Tally,
        scratch: &Path,
        number: usize,
    ) -> Fallible<()> {
        let (place, ordinal) = self.kind_of(number);
        let kind = &self.kinds[place];
        // the case depends on the seed and the number alone
        let case = kind.case(&mut Random::new(options.seed, number as u64), ordinal);
        tally.count(place, &case);
        let expected = case.expected();
        kind.check(&case, &expected)
            .map_err(|what| format!("case {number} ({}): {what}", kind.name()))?;
        program::write_inputs(scratch, &case)?;
        let outcome = program::run(&options.program, scratch, &case, expected.len())?;
        let found = program::differences(&case, &expected, &outcome);
        if found.is_empty() {
            return Ok(());
        }
        if matches!(outcome.ending, Ending::Stopped(_)) {
            progress.stopped.fetch_add(1, Relaxed);
        }
        if progress.failed.fetch_add(1, Relaxed) < MOST_KEPT {
            let kept = options.folder.join("failed").join(format!("{number:05}"));
            program::keep(&case, &kept, &expected, &outcome, &found)?;
            println!("{}: {}: {}", kept.display(), kind.name(), found.join("; "));
        }
        Ok(())
    }

    /// The place in the table of the kind of case `number`, and which of that kind's cases it is.
    /// The cases go through the table in turns, each as long as the sum of the weights.
    fn kind_of(&self, number: usize) -> (usize, usize) {
        let turn: usize = self.kinds.iter().map(Kind::weight).sum();
        let mut rest = number % turn;
        for (place, kind) in self.kinds.iter().enumerate() {
            if rest < kind.weight() {
                return (place, number / turn * kind.weight() + rest);
            }
            rest -= kind.weight();
        }
        unreachable!("the rest is below the sum of the weights")
    }
}

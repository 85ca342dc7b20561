//! Makes each call on both sides, compares, and counts.

mod carried;
mod reached;
mod with_table;

use crate::guarded::Guarded;
use crate::logs::{ROW, TABLE};
use crate::rng::{Item, Rng};
use hovmekhar::{ffi, Kind};
use reference::{Refusal, Screened, Summary, Tally};
use std::collections::BTreeMap;
use std::time::{SystemTime, UNIX_EPOCH};
use std::{env, fmt};

pub use carried::{Carried, Played};
pub use with_table::WithTable;

/// What a call answers: a result or a refusal. The result is a length, except
/// for the calls on a log table, for judging, for screening, for the search for a word and
/// for steps.
pub type Outcome<R = usize> = Result<R, Refusal>;

/// The refusal with this number and spot.
pub fn refusal<R>(number: u8, spot: usize) -> Outcome<R> {
    Err(Refusal { number, spot })
}

/// What a call did, the same on both sides.
pub struct Done {
    /// The answer.
    pub outcome: Outcome,
    /// The whole output after the call.
    pub output: Vec<u8>,
}

/// What a call on a log table did, the same on both sides.
pub struct Taken {
    /// The answer.
    pub outcome: Outcome<Summary>,
    /// The whole table after the call.
    pub table: Vec<u16>,
}

/// What judging a bundle did, the same on both sides.
pub struct Judged {
    /// The answer.
    pub outcome: Outcome<Tally>,
    /// The whole table after the call.
    pub table: Vec<u16>,
}

/// What an answer makes a call return and allows it to write.
struct Written {
    /// The number that is returned.
    number: u32,
    /// The numbers of the answer, from `answer[0]` on.
    answer: Vec<u64>,
    /// How many items at the front of the output or table.
    items: usize,
}

impl Written {
    fn length(&length: &usize) -> Self {
        Self {
            number: 0,
            answer: vec![length as u64],
            items: length,
        }
    }

    fn summary(&Summary { n, rows, events }: &Summary, items: usize) -> Self {
        Self {
            number: 0,
            answer: [n, rows, events].map(|number| number as u64).to_vec(),
            items,
        }
    }

    fn counts(counts: &Tally) -> Self {
        let &Tally {
            rows,
            allowed,
            by_place,
            by_weights,
        } = counts;
        Self {
            number: 0,
            answer: [rows, allowed, by_place, by_weights]
                .map(|number| number as u64)
                .to_vec(),
            items: TABLE,
        }
    }

    fn screened(screened: &Screened) -> Self {
        let (number, answer) = match *screened {
            Screened::Permitted => (0, Vec::new()),
            Screened::Stopped {
                position,
                place,
                shortfall,
            } => {
                let numbers = [position, place, shortfall].map(|number| number as u64);
                (ffi::STOPPED, numbers.to_vec())
            }
        };
        Self {
            number,
            answer,
            items: 0,
        }
    }

    fn refused(refusal: &Refusal, items: usize) -> Self {
        Self {
            number: refusal.number.into(),
            answer: vec![refusal.spot as u64],
            items,
        }
    }
}

/// How many numbers there are: those of the refusals, and 0.
const NUMBERS: usize = 1 + Kind::ALL.len();

/// The run of one test: its random numbers and its counts. As text it says how
/// to repeat the run, for the messages of assertions.
pub struct Run {
    /// The random generator, seeded for this test.
    pub rng: Rng,
    name: &'static str,
    seed: u64,
    multiplier: usize,
    calls: usize,
    /// How often each number was returned; 0 stands for a result.
    counts: [usize; NUMBERS],
    /// How often the test noted each class of cases.
    classes: BTreeMap<&'static str, usize>,
}

impl Run {
    /// Starts the test with this name and prints its seed.
    pub fn start(name: &'static str) -> Self {
        let seed = number_from_env("HOVMEKHAR_SEED").unwrap_or_else(seed_from_clock);
        let multiplier = number_from_env("HOVMEKHAR_CASES").unwrap_or(1) as usize;
        println!("{name}: HOVMEKHAR_SEED={seed}");
        Self {
            // Tests with the same seed get different random numbers.
            rng: Rng::new(
                name.bytes()
                    .fold(seed, |hash, byte| Rng::new(hash ^ u64::from(byte)).number()),
            ),
            name,
            seed,
            multiplier,
            calls: 0,
            counts: [0; NUMBERS],
            classes: BTreeMap::new(),
        }
    }

    /// A number of cases, times the multiplier of this run.
    pub fn cases(&self, count: usize) -> usize {
        count * self.multiplier
    }

    /// Opens on both sides and compares.
    pub fn open(&mut self, file: &[u8], output_len: usize) -> Done {
        let noise = self.rng.bytes(output_len);
        let (outcome, output) = self.compare(
            [file],
            noise,
            |[file], output, answer| ffi::open(file, output, answer),
            |[file], output| reference::open(file, output),
            Written::length,
            nothing,
        );
        Done { outcome, output }
    }

    /// Seals on both sides and compares.
    pub fn seal(&mut self, bundle: &[u8], output_len: usize) -> Done {
        let noise = self.rng.bytes(output_len);
        self.seal_into(bundle, noise)
    }

    /// Seals on both sides, with copies of this output, and compares.
    pub fn seal_into(&mut self, bundle: &[u8], output: Vec<u8>) -> Done {
        let (outcome, output) = self.compare(
            [bundle],
            output,
            |[bundle], output, answer| ffi::seal(bundle, output, answer),
            |[bundle], output| reference::seal(bundle, output),
            Written::length,
            nothing,
        );
        Done { outcome, output }
    }

    /// Starts a log on both sides, with copies of this table, and compares.
    pub fn fresh(&mut self, n: usize, table: &[u16]) -> Taken {
        let (outcome, table) = self.compare(
            [],
            table.to_vec(),
            |[], table, answer| ffi::fresh(n, table, answer),
            |[], table| reference::fresh(n, table),
            |summary| Written::summary(summary, TABLE),
            nothing,
        );
        Taken { outcome, table }
    }

    /// Takes a word on both sides, with copies of this table, and compares.
    pub fn take(&mut self, summary: Summary, word: &[u8], table: &[u16]) -> Taken {
        let Summary { n, rows, events } = summary;
        let (outcome, table) = self.compare(
            [word],
            table.to_vec(),
            |[word], table, answer| ffi::take(n, rows, events, word, table, answer),
            |[word], table| reference::take(summary, word, table),
            |next| Written::summary(next, next.rows * ROW),
            nothing,
        );
        Taken { outcome, table }
    }

    /// Judges a bundle on both sides, with copies of this table, and compares.
    pub fn judge(&mut self, bundle: &[u8], table: &[u16]) -> Judged {
        let (outcome, table) = self.compare(
            [bundle],
            table.to_vec(),
            |[bundle], table, answer| ffi::judge(bundle, table, answer),
            |[bundle], table| reference::judge(bundle, table),
            Written::counts,
            |refused| match refused.number {
                4 | 5 => 0,
                _ => TABLE,
            },
        );
        Judged { outcome, table }
    }

    /// Screens a word on both sides and compares. Notes whether it is permitted or
    /// stopped.
    pub fn screen(&mut self, bundle: &[u8], word: &[u8]) -> Outcome<Screened> {
        let no_output: Vec<u8> = Vec::new();
        let (outcome, _) = self.compare(
            [bundle, word],
            no_output,
            |[bundle, word], _, answer| ffi::screen(bundle, word, answer),
            |[bundle, word], _| reference::screen(bundle, word),
            Written::screened,
            nothing,
        );
        self.note_screened(outcome)
    }

    /// Screens a word on two nets on both sides and compares, and notes as
    /// [`Run::screen`] does.
    pub fn screen_joined(&mut self, first: &[u8], second: &[u8], word: &[u8]) -> Outcome<Screened> {
        let no_output: Vec<u8> = Vec::new();
        let (outcome, _) = self.compare(
            [first, second, word],
            no_output,
            |[first, second, word], _, answer| ffi::screen_joined(first, second, word, answer),
            |[first, second, word], _| reference::screen_joined(first, second, word),
            Written::screened,
            nothing,
        );
        self.note_screened(outcome)
    }

    fn note_screened(&mut self, outcome: Outcome<Screened>) -> Outcome<Screened> {
        match outcome {
            Ok(Screened::Permitted) => self.note("permitted"),
            Ok(Screened::Stopped { .. }) => self.note("stopped"),
            Err(_) => (),
        }
        outcome
    }

    /// Makes one call on both sides, with equal inputs and outputs, and compares
    /// the answers and every item of the outputs. Nothing may have changed but
    /// what the result allows; a refusal may only write `answer[0]`, and as many
    /// items at the front of the output as `refused` says. Inputs and outputs are
    /// anywhere in memory, bytes also at odd addresses. A table counts as output.
    fn compare<T: Item, R, const INPUTS: usize>(
        &mut self,
        inputs: [&[u8]; INPUTS],
        mut reference_output: Vec<T>,
        ours: impl FnOnce([&[u8]; INPUTS], &mut [T], &mut ffi::Answer) -> u32,
        reference: impl FnOnce([&[u8]; INPUTS], &mut [T]) -> Outcome<R>,
        written: impl FnOnce(&R) -> Written,
        refused: impl FnOnce(&Refusal) -> usize,
    ) -> (Outcome<R>, Vec<T>) {
        self.calls += 1;
        let inputs = inputs.map(|input| self.guarded(input));
        let lent_inputs = inputs.each_ref().map(Guarded::lent);
        let mut output = self.guarded(&reference_output);
        let mut answer = Guarded::new(
            &self.rng.numbers::<4>(),
            &self.rng.numbers::<4>(),
            &self.rng.numbers::<4>(),
        );
        let four: &mut ffi::Answer = answer.lent_mut().try_into().expect("four numbers");
        let number = ours(lent_inputs, output.lent_mut(), four);

        let outcome = reference(lent_inputs, &mut reference_output);
        let (refusal_number, written) = match &outcome {
            Ok(result) => (0, written(result)),
            Err(refusal) => (refusal.number, Written::refused(refusal, refused(refusal))),
        };

        let answered = written.answer.len();
        assert_eq!(
            (number, &answer.lent()[..answered]),
            (written.number, written.answer.as_slice()),
            "number and answer, ours and the reference's: {self}"
        );
        let same = output.lent() == reference_output;
        assert!(same, "the outputs differ: {self}");
        assert!(
            output.kept_beyond(written.items),
            "changed beyond the result, in the output or around it: {self}"
        );
        assert!(
            answer.kept_beyond(answered),
            "changed beyond what was answered, in the answer or around it: {self}"
        );
        assert!(
            inputs.iter().all(|input| input.kept_beyond(0)),
            "changed in an input or around it: {self}"
        );

        self.counts[usize::from(refusal_number)] += 1;
        (outcome, reference_output)
    }

    /// A buffer with guards of noise, at any alignment.
    fn guarded<T: Item>(&mut self, lent: &[T]) -> Guarded<T> {
        let front = 64 + self.rng.below(64);
        Guarded::new(&self.rng.items(front), lent, &self.rng.items(64))
    }

    /// Counts a call that the test makes by itself and that has to return this
    /// number, 0 standing for a result.
    pub fn count(&mut self, number: u8) {
        self.calls += 1;
        self.counts[usize::from(number)] += 1;
    }

    /// Counts a case of this class.
    pub fn note(&mut self, class: &'static str) {
        *self.classes.entry(class).or_default() += 1;
    }

    /// Ends the test: prints the counts and checks that each number that is
    /// listed was returned at least so often, 0 standing for a result. So a
    /// generator that no longer makes what it should is noticed.
    pub fn finish(self, at_least: &[(u8, usize)]) {
        self.finish_with_classes(at_least, &[]);
    }

    /// Ends the test like [`Run::finish`], and checks that each class that is
    /// listed was noted at least so often.
    pub fn finish_with_classes(
        self,
        at_least: &[(u8, usize)],
        classes_at_least: &[(&'static str, usize)],
    ) {
        let counts: Vec<String> = self
            .counts
            .iter()
            .enumerate()
            .filter(|&(_, &count)| count > 0)
            .map(|(number, count)| match number {
                0 => format!("{count} results"),
                _ => format!("{count} refusals {number}"),
            })
            .collect();
        println!("{}: {} calls: {}", self.name, self.calls, counts.join(", "));
        for (class, count) in &self.classes {
            println!("{}: {class}: {count}", self.name);
        }
        for &(number, least) in at_least {
            let count = self.counts[usize::from(number)];
            assert!(
                count >= least,
                "only {count} of {least} answers with number {number}: {self}"
            );
        }
        for &(class, least) in classes_at_least {
            let count = self.classes.get(class).copied().unwrap_or_default();
            assert!(
                count >= least,
                "only {count} of {least} cases of the class '{class}': {self}"
            );
        }
    }
}

impl fmt::Display for Run {
    fn fmt(&self, f: &mut fmt::Formatter<'_>) -> fmt::Result {
        write!(
            f,
            "test {}, HOVMEKHAR_SEED={}, HOVMEKHAR_CASES={}, call {}",
            self.name, self.seed, self.multiplier, self.calls
        )
    }
}

/// How many items a refusal writes, except where the judge clears the table.
fn nothing(_: &Refusal) -> usize {
    0
}

/// Output lengths worth trying with a result of this length: none, too short by
/// one, exact, longer by one, longer by a bit, and longer than any result.
pub fn output_lengths(rng: &mut Rng, needed: usize) -> [usize; 6] {
    [
        0,
        needed.saturating_sub(1),
        needed,
        needed + 1,
        needed + rng.within(2..=1_000),
        70_000,
    ]
}

fn number_from_env(variable: &str) -> Option<u64> {
    let text = env::var(variable).ok()?;
    match text.parse() {
        Ok(number) => Some(number),
        Err(error) => panic!("{variable}={text}: {error}"),
    }
}

fn seed_from_clock() -> u64 {
    SystemTime::now()
        .duration_since(UNIX_EPOCH)
        .map_or(0, |time| time.as_nanos() as u64)
}

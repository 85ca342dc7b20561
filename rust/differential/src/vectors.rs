//! Cases with their answers, from a file.
//!
//! A line is `CALL ARGUMENT.. = ANSWER`, or a comment that starts with `#`. Bytes are in
//! hexadecimal, no bytes are `-`; many bytes are parts joined by `.`, of which
//! `HEXxCOUNT` is a part that is repeated. Tokens are decimal, with commas.

use crate::logs::{ROW, TABLE};
use crate::run::Outcome;
use reference::{Refusal, Screened, Step, Tally};
use std::collections::BTreeMap;

/// What each number and each byte of lent memory is before a call.
pub const LENT: u8 = 7;

/// The most rows of a table that a file lists number by number.
const MOST_LISTED: usize = 20;

/// A call by its name, with what it is given and what it has to answer.
#[derive(Clone, Debug, PartialEq, Eq)]
pub struct Case {
    call: String,
    arguments: Vec<String>,
    /// The answer in words, its bytes without parts.
    pub answer: String,
}

impl Case {
    /// The arguments of a call that has so many.
    pub fn arguments<const COUNT: usize>(&self) -> [Argument<'_>; COUNT] {
        let arguments: Vec<_> = self.all().collect();
        let count = arguments.len();
        match arguments.try_into() {
            Ok(arguments) => arguments,
            Err(_) => panic!("{} has {COUNT} arguments, not {count}", self.call),
        }
    }

    /// The arguments of a call that has any number of them.
    pub fn all(&self) -> impl Iterator<Item = Argument<'_>> {
        self.arguments.iter().map(|text| Argument(text))
    }
}

/// An argument of a case.
#[derive(Clone, Copy, Debug, PartialEq, Eq)]
pub struct Argument<'c>(&'c str);

impl Argument<'_> {
    /// The argument as bytes.
    pub fn bytes(self) -> Vec<u8> {
        bytes(self.0)
    }

    /// The argument as a number, or as a length.
    pub fn number(self) -> usize {
        self.0.parse().expect("a number")
    }

    /// The argument as tokens.
    pub fn tokens(self) -> Vec<u64> {
        match self.0 {
            "-" => Vec::new(),
            text => text
                .split(',')
                .map(|number| number.parse().expect("a number"))
                .collect(),
        }
    }

    /// Lent memory of this length.
    pub fn lent<T: Clone + From<u8>>(self) -> Vec<T> {
        vec![T::from(LENT); self.number()]
    }
}

/// The cases of a file, by call.
#[derive(Clone, Debug, Default, PartialEq, Eq)]
pub struct Cases(BTreeMap<String, Vec<Case>>);

impl Cases {
    /// Reads the text of a file.
    ///
    /// # Panics
    ///
    /// When a line is no case.
    pub fn read(text: &str) -> Self {
        let mut cases = Self::default();
        for line in text.lines().filter(|line| !line.starts_with('#')) {
            let (call, answer) = line.split_once(" = ").expect("a case has an answer");
            let mut words = call.split(' ').map(String::from);
            let call = words.next().expect("a case has a call");
            cases.0.entry(call.clone()).or_default().push(Case {
                call,
                arguments: words.collect(),
                answer: without_parts(answer),
            });
        }
        cases
    }

    /// How many cases each call has, in the order of their names.
    pub fn counts(&self) -> Vec<(&str, usize)> {
        let counts = self.0.iter();
        counts
            .map(|(call, cases)| (call.as_str(), cases.len()))
            .collect()
    }

    /// The cases of a call.
    ///
    /// # Panics
    ///
    /// When there are none.
    pub fn of(&self, call: &str) -> &[Case] {
        let cases = self.0.get(call);
        cases.unwrap_or_else(|| panic!("no case of {call}"))
    }
}

fn bytes(text: &str) -> Vec<u8> {
    match text {
        "-" => Vec::new(),
        _ => text.split('.').flat_map(part).collect(),
    }
}

fn part(text: &str) -> Vec<u8> {
    let (digits, count) = match text.split_once('x') {
        Some((digits, count)) => (digits, count.parse().expect("a count")),
        None => (text, 1),
    };
    assert_eq!(digits.len() % 2, 0, "half a byte: {digits}");
    let bytes: Vec<u8> = (0..digits.len())
        .step_by(2)
        .map(|i| u8::from_str_radix(&digits[i..i + 2], 16).expect("hexadecimal digits"))
        .collect();
    bytes.repeat(count)
}

/// An answer whose bytes are each in one part: no word of an answer has a `.` or an `x`.
fn without_parts(answer: &str) -> String {
    let words = answer
        .split(' ')
        .map(|word| match word.contains(['.', 'x']) {
            true => digits(&bytes(word)),
            false => word.to_string(),
        });
    words.collect::<Vec<_>>().join(" ")
}

fn digits(bytes: &[u8]) -> String {
    bytes.iter().map(|byte| format!("{byte:02x}")).collect()
}

/// The line that the program prints for this answer, without its end.
pub fn line(answer: Outcome<Tally>) -> String {
    match answer {
        Ok(Tally {
            rows,
            allowed,
            by_place,
            by_weights,
        }) => format!("accepted {rows} {allowed} {by_place} {by_weights}"),
        Err(refused) => refused_line(refused),
    }
}

/// The answer of a call that writes bytes in words, with these bytes in hexadecimal.
pub fn written_line(answer: Outcome<&[u8]>) -> String {
    match answer {
        Ok(bytes) => format!("written {}", digits(bytes)),
        Err(refused) => refused_line(refused),
    }
}

/// The number of rows, and then their numbers.
pub fn rows_line(rows: usize, numbers: &[u16]) -> String {
    let numbers: Vec<String> = numbers.iter().map(ToString::to_string).collect();
    format!("{rows} {}", numbers.join(" "))
}

/// What a lent table holds after a call, in words: it is as it was; or its first 3,584
/// numbers are zero; or they are the rows of a log and zeros behind them. The rest is as
/// it was in any case.
///
/// # Panics
///
/// When it holds something else.
pub fn table_line(table: &[u16], has_rows: bool) -> String {
    let is_lent = |number: &u16| *number == u16::from(LENT);
    if table.iter().all(is_lent) {
        return "table kept".to_string();
    }
    let (front, rest) = table.split_at(TABLE);
    assert!(rest.iter().all(is_lent), "changed beyond the table");
    // The one row of a log without words is zero, too.
    if front.iter().all(|&number| number == 0) {
        return "table zero".to_string();
    }
    assert!(has_rows, "neither kept nor zero: {front:?}");
    // Every row but row 0 counts an event.
    let is_used = |row: &[u16]| row.iter().any(|&number| number > 0);
    let last = front.chunks_exact(ROW).rposition(is_used);
    let rows = 1 + last.unwrap_or(0);
    if rows <= MOST_LISTED {
        return format!("table {}", rows_line(rows, &front[..rows * ROW]));
    }
    let numbers = (1..).zip(front.iter().copied().map(u64::from));
    let sum: u64 = numbers.map(|(i, number)| i * number).sum();
    format!("table {rows} sum {sum}")
}

/// The answer of screening in words.
pub fn screened_line(answer: Outcome<Screened>) -> String {
    match answer {
        Ok(Screened::Permitted) => "permitted".to_string(),
        Ok(Screened::Stopped {
            position,
            place,
            shortfall,
        }) => format!("stopped {position} {place} {shortfall}"),
        Err(refused) => refused_line(refused),
    }
}

/// The answer of the search for a word in words.
pub fn reached_line(answer: Outcome<Option<Vec<u8>>>) -> String {
    match answer.as_ref().map(Option::as_deref) {
        Ok(Some([])) => "word -".to_string(),
        Ok(Some(word)) => format!("word {}", digits(word)),
        Ok(None) => "none".to_string(),
        Err(refused) => refused_line(*refused),
    }
}

/// The answer of starting in words.
pub fn started_line(answer: Outcome) -> String {
    match answer {
        Ok(number) => format!("started {number}"),
        Err(refused) => refused_line(refused),
    }
}

/// The answer of a step in words.
pub fn stepped_line(answer: Outcome<Step>) -> String {
    match answer {
        Ok(Step::Moved(number)) => format!("moved {number}"),
        Ok(Step::Stopped {
            position,
            place,
            shortfall,
        }) => format!("stopped {position} {place} {shortfall}"),
        Err(refused) => refused_line(refused),
    }
}

/// Tokens as they are listed, with this between two.
pub fn tokens_line(tokens: &[u64], between: &str) -> String {
    let numbers: Vec<String> = tokens.iter().map(ToString::to_string).collect();
    match numbers.as_slice() {
        [] => "tokens -".to_string(),
        _ => format!("tokens {}", numbers.join(between)),
    }
}

/// The answer of replacing a net in words.
pub fn replaced_line(answer: Outcome<()>) -> String {
    match answer {
        Ok(()) => "replaced".to_string(),
        Err(refused) => refused_line(refused),
    }
}

/// A buffer of kept events as it is listed.
pub fn kept_line(kept: &[u8]) -> String {
    match kept {
        [] => "kept -".to_string(),
        _ => format!("kept {}", digits(kept)),
    }
}

fn refused_line(Refusal { number, spot }: Refusal) -> String {
    format!("refused {number} {spot}")
}

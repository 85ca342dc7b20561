//! The blocks of a sealed file, and the rules that they break.

use super::page::spaced;
use hovmekhar::{Refusal, BLOCK_SIZE, CONTENTS_SIZE, MAX_FILE_SIZE};

const CONTENTS: usize = 4;
const SUMS: usize = CONTENTS + CONTENTS_SIZE;
const MODULUS: usize = 65_521;

/// A rule that a block breaks.
pub struct Rule {
    /// The number of the refusal.
    pub number: u8,
    /// What is stored and what is right.
    pub words: String,
}

/// A block that breaks a rule.
pub struct Broken {
    /// Its position, from 0.
    pub block: usize,
    /// The first rule that it breaks, in the order in which the library looks at them.
    pub first: Rule,
    /// The other rules that it breaks.
    pub others: Vec<Rule>,
}

impl Broken {
    /// What the library refuses a file with in which no block before this one is
    /// broken.
    pub fn refusal(&self) -> Refusal {
        Refusal {
            number: self.first.number,
            spot: self.block,
        }
    }

    /// What is wrong, in a line.
    pub fn words(&self) -> String {
        let rules = [&self.first].into_iter().chain(&self.others);
        let words: Vec<&str> = rules.map(|rule| rule.words.as_str()).collect();
        words.join("; ")
    }
}

/// Whether a file of this length has blocks.
pub fn is_length(length: usize) -> bool {
    length > 0 && length % BLOCK_SIZE == 0 && length <= MAX_FILE_SIZE
}

/// All blocks that break a rule.
pub fn broken(file: &[u8]) -> Vec<Broken> {
    let last = (file.len() / BLOCK_SIZE).saturating_sub(1);
    let blocks = file.chunks_exact(BLOCK_SIZE).enumerate();
    let broken = blocks.filter_map(|(block, bytes)| {
        let mut rules = broken_rules(bytes, block, block == last).into_iter();
        let first = rules.next()?;
        Some(Broken {
            block,
            first,
            others: rules.collect(),
        })
    });
    broken.collect()
}

/// The rules that a block breaks, in the order in which the library looks at them.
fn broken_rules(block: &[u8], position: usize, is_last: bool) -> Vec<Rule> {
    let mut rules = Vec::new();
    let mut add = |number, words| rules.push(Rule { number, words });
    let stored = number_at(block, 0);
    if stored != position {
        let words = format!("its number is {stored} in place of {position}");
        add(Refusal::BLOCK_NUMBER, words);
    }
    if let Some(words) = used_or_padding(block, is_last) {
        add(Refusal::BLOCK_USE, words);
    }
    let (plain, weighted) = sums(block);
    for (name, at, right) in [("S", SUMS, plain), ("W", SUMS + 2, weighted)] {
        let stored = number_at(block, at);
        if stored != right {
            let words = format!("{name} is {stored} in place of {right}");
            add(Refusal::BLOCK_SUMS, words);
        }
    }
    rules
}

/// What the numbers of the blocks say about their order, where they say something:
/// the order in which they stand, when no number is too large for so many blocks;
/// and which one is missing, when the highest number calls for one block that is not
/// there. Numbers in a file with wrong sums may be damaged, so that no block counts as
/// missing then.
pub fn order(file: &[u8]) -> Option<String> {
    let blocks = file.chunks_exact(BLOCK_SIZE);
    let numbers: Vec<usize> = blocks.map(|block| number_at(block, 0)).collect();
    let &highest = numbers.iter().max()?;
    let mut says = Vec::new();
    if highest < numbers.len() {
        says.push(format!(
            "the blocks stand in the order {}",
            spaced(&numbers)
        ));
    }
    let mut missing = (0..highest).filter(|number| !numbers.contains(number));
    if let (Some(missing), None) = (missing.next(), missing.next()) {
        if file.chunks_exact(BLOCK_SIZE).all(has_right_sums) {
            says.push(format!("block {missing} is missing"));
        }
    }
    (!says.is_empty()).then(|| says.join("; "))
}

fn has_right_sums(block: &[u8]) -> bool {
    sums(block) == (number_at(block, SUMS), number_at(block, SUMS + 2))
}

/// What is wrong with the used count, else with the contents that are not used.
fn used_or_padding(block: &[u8], is_last: bool) -> Option<String> {
    let used = number_at(block, 2);
    let least = if is_last { 1 } else { CONTENTS_SIZE };
    if used < least || used > CONTENTS_SIZE {
        let right = match is_last {
            true => format!("1 to {CONTENTS_SIZE} in the last block"),
            false => format!("{CONTENTS_SIZE}"),
        };
        return Some(format!("its used count is {used} in place of {right}"));
    }
    let unused = CONTENTS + used..SUMS;
    let mut wrong = unused.filter(|&at| block[at] != 0);
    let first = wrong.next()?;
    let value = block[first];
    let more = match wrong.count() {
        0 => String::new(),
        more => format!(", and {more} more are not 0"),
    };
    Some(format!(
        "its padding has {value} in place of 0 at byte {first}{more}"
    ))
}

fn sums(block: &[u8]) -> (usize, usize) {
    let bytes = (1..).zip(&block[..SUMS]);
    let (plain, weighted) = bytes.fold((0, 0), |(plain, weighted), (factor, &byte)| {
        let byte = usize::from(byte);
        (plain + byte, weighted + factor * byte)
    });
    (plain % MODULUS, weighted % MODULUS)
}

fn number_at(block: &[u8], at: usize) -> usize {
    usize::from(u16::from_le_bytes([block[at], block[at + 1]]))
}

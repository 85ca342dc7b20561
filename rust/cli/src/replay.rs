//! `hov replay`.

use crate::args::Part;
use crate::output::{self, Trouble};
use crate::show::spaced;
use crate::{names, screen, Status};
use hovmekhar::{Refusal, Sale, Screened};
use std::ffi::{OsStr, OsString};

/// How much text is gathered before it is printed.
const ENOUGH: usize = 1 << 16;

/// Plays events one by one on the net of a file, and behind them further ones on those that
/// take its place. Shows the tokens of the places at first, after each event, and where a net
/// is replaced.
///
/// # Errors
///
/// When a file can't be read, or standard output does not take the lines.
pub fn replay(parts: &[Part]) -> Result<Status, Trouble> {
    // All are read before one is refused: trouble has the higher status.
    let files = parts.iter().map(|part| screen::read(&part.file));
    let files = files.collect::<Result<Vec<_>, Trouble>>()?;
    let sale = match hovmekhar::open_vec(&files[0]).and_then(Sale::start) {
        Ok(sale) => sale,
        Err(refusal) => return screen::refused(refusal, &parts[0].file),
    };
    let mut replay = Replay {
        sale,
        text: String::new(),
    };
    let End { part, answer } = replay.play_all(parts, &files)?;
    output::print(replay.text.as_bytes())?;
    let status = match answer {
        Ok(screened) => {
            let word: Vec<u8> = parts.iter().flat_map(|part| part.word.clone()).collect();
            screen::told(screened, &word, |_| whose(parts, part))?
        }
        Err(refusal) => screen::refused(refusal, &subject(refusal, parts, part))?,
    };
    output::print_line(&replay.idleness())?;
    Ok(status)
}

/// Of which net a place is, where there are several.
fn whose(parts: &[Part], part: usize) -> String {
    match parts {
        [_] => String::new(),
        _ => format!(" of {}", names::shown(&parts[part].file)),
    }
}

/// What is refused: the net that is played on or would be, or both where their event counts
/// are not the same.
fn subject(refusal: Refusal, parts: &[Part], part: usize) -> OsString {
    let file = &parts[part].file;
    if refusal.number == Refusal::REPLACED_EVENTS {
        return [&parts[part - 1].file, file]
            .map(OsString::as_os_str)
            .join(OsStr::new(" then "));
    }
    file.clone()
}

/// How a replay ended: what was answered last, and in which part.
struct End {
    part: usize,
    answer: Result<Screened, Refusal>,
}

/// A sale, and the lines that are not printed yet.
struct Replay {
    sale: Sale,
    text: String,
}

impl Replay {
    /// Plays the events up to the first that is stopped or refused, or the first net that is
    /// refused.
    fn play_all(&mut self, parts: &[Part], files: &[Vec<u8>]) -> Result<End, Trouble> {
        self.add("at first");
        for (part, (Part { file, word }, bytes)) in parts.iter().zip(files).enumerate() {
            if part > 0 {
                if let Err(refusal) = self.replace(file, bytes) {
                    let answer = Err(refusal);
                    return Ok(End { part, answer });
                }
            }
            match self.play(word)? {
                Ok(Screened::Permitted) => (),
                answer => return Ok(End { part, answer }),
            }
        }
        Ok(End {
            part: parts.len() - 1,
            answer: Ok(Screened::Permitted),
        })
    }

    /// Puts the net of a file in place of the one before, with a line for it.
    fn replace(&mut self, name: &OsStr, file: &[u8]) -> Result<(), Refusal> {
        let bundle = hovmekhar::open_vec(file)?;
        self.sale.replace(bundle)?;
        self.add(&format!("replaced by {}", names::shown(name)));
        Ok(())
    }

    /// Plays events up to the first that is stopped or refused, with a line for each that is
    /// permitted. What is answered last.
    fn play(&mut self, word: &[u8]) -> Result<Result<Screened, Refusal>, Trouble> {
        for &event in word {
            match self.sale.step(event.into()) {
                Ok(Screened::Permitted) => self.add(&format!("after event {event}")),
                answer => return Ok(answer),
            }
            if self.text.len() > ENOUGH {
                output::print(self.text.as_bytes())?;
                self.text.clear();
            }
        }
        Ok(Ok(Screened::Permitted))
    }

    /// Adds a line with the tokens of the places.
    fn add(&mut self, when: &str) {
        let tokens = match self.sale.tokens() {
            [] => "no places".into(),
            tokens => spaced(tokens),
        };
        self.text += &format!("{when}: {tokens}\n");
    }

    /// Whether all places have their initial tokens, else the lowest that has not.
    fn idleness(&self) -> String {
        let (tokens, initial) = (self.sale.tokens(), self.sale.initial());
        match (0..tokens.len()).find(|&place| tokens[place] != initial[place]) {
            None => "idle: each place has its initial tokens".into(),
            Some(place) => {
                let (has, at_first) = (tokens[place], initial[place]);
                format!("not idle: place {place} has {has}, at first {at_first}")
            }
        }
    }
}

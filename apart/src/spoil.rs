//! A program that errs once: one word of one response, or one byte of the desk's text, is spoiled, and the run that
//! drives it must notice.

use crate::chance::Chance;
use crate::protocol::{Request, Response, Word};
use std::fs::{self, OpenOptions};
use std::io::{self, Write};
use std::path::PathBuf;

/// A run starts the driven program many times, so the responses before this one are counted in a file, a byte each.
pub struct Spoiler {
    seed: u64,
    /// Which response of the run is spoiled, if any.
    place: Option<u64>,
    /// Holds the file that counts, and the one that says what was spoiled.
    folder: PathBuf,
}

impl Spoiler {
    /// Spoils one of so many responses; of none, none.
    pub fn new(seed: u64, responses: usize, folder: &str) -> Spoiler {
        let place = (responses > 0).then(|| Chance::new(seed).below(responses) as u64);
        Spoiler { seed, place, folder: folder.into() }
    }

    pub fn pass(&self, request: &Request, response: &mut Response) -> io::Result<()> {
        self.in_turn(|chance| format!("{}\n{}\n", request.named(), spoil(request, response, chance)))
    }

    pub fn pass_text(&self, text: &mut [u8]) -> io::Result<()> {
        self.in_turn(|chance| {
            let at = chance.below(text.len());
            text[at] ^= 1 << chance.below(8);
            format!("the desk\nbyte {at}:\n")
        })
    }

    /// Counts a response; spoils it, and says how, where its turn has come.
    fn in_turn(&self, spoil: impl FnOnce(&mut Chance) -> String) -> io::Result<()> {
        let mut answered = OpenOptions::new().create(true).append(true).open(self.folder.join("answered"))?;
        // Two programs may answer at the same time; the lock ends with the file.
        answered.lock()?;
        let before = answered.metadata()?.len();
        answered.write_all(b".")?;
        if self.place != Some(before) {
            return Ok(());
        }
        fs::write(self.folder.join("spoiled"), spoil(&mut Chance::new(!self.seed)))
    }
}

/// Changes a word of the answer or of a buffer, leaves its last one out or puts one more behind it. Says what the run
/// must find.
fn spoil(request: &Request, response: &mut Response, chance: &mut Chance) -> String {
    let mut lists = vec![("the answer", &mut response.answer)];
    lists.extend(request.shape().lent().map(|(_, argument)| argument.name).zip(&mut response.lent));
    let at = chance.below(lists.len());
    let (name, list) = &mut lists[at];
    let last = list.len();
    match chance.below(8) {
        0 if last > 0 => {
            let old = list.pop().expect("a last word");
            format!("word {} of {name}: expected {old}, found nothing", last - 1)
        }
        2.. if last > 0 => {
            let at = chance.below(last);
            let old = list[at];
            list[at] = another(old, chance);
            format!("word {at} of {name}: expected {old}, found {}", list[at])
        }
        _ => {
            list.push(0);
            format!("word {last} of {name}: expected nothing, found 0")
        }
    }
}

/// Any other word: one beside it, or one bit away.
fn another(word: Word, chance: &mut Chance) -> Word {
    match chance.below(4) {
        0 => word.wrapping_add(1),
        1 => word.wrapping_sub(1),
        _ => word ^ 1 << chance.below(64),
    }
}

//! The bench: sends calls to the driven programs and compares each answer and every number of every buffer.

use crate::answers::answer;
use crate::chance::Chance;
use crate::desk;
use crate::pipe::{Driven, LATE};
use crate::protocol::{bytes_of, Request, Response, Word, EXACT_SUM, JOB, THIN, THIN_PLAIN, VOLUME};
use crate::tally::{difference, written, Tally};
use std::collections::VecDeque;
use std::rc::Rc;
use std::time::Duration;

/// How long a driven program may take to answer, to end where it must, and once it has been silent a few times.
pub const PATIENCE: Duration = Duration::from_secs(60);
pub const END: Duration = Duration::from_secs(10);
const LITTLE_PATIENCE: Duration = Duration::from_secs(2);
const FEW: usize = 3;
/// The places of the kept programs: one for calls that are waited for, two for calls worked beside each other.
const ALONE: usize = 0;
const BESIDE: [usize; 2] = [1, 2];

/// A call that is worked beside another, what it must answer, and what it is about.
pub struct Sent<T> {
    pub kind: &'static str,
    pub request: Request,
    pub expected: Rc<Response>,
    pub about: T,
}

pub struct Bench {
    pub calls_path: String,
    pub desk_path: String,
    pub tally: Tally,
    /// How many calls the run is asked for.
    pub wanted: usize,
    /// The calls that are driven, where not all are; the desk is then left out as well.
    only: Option<Vec<usize>>,
    /// The command of the whole run, for what no single call shows again.
    whole: String,
    calls: [Option<Driven>; 3],
    silent: usize,
}

impl Bench {
    pub fn new(calls_path: &str, desk_path: &str, wanted: usize, whole: String) -> Bench {
        Bench {
            calls_path: calls_path.to_string(),
            desk_path: desk_path.to_string(),
            tally: Tally::default(),
            wanted,
            only: None,
            whole,
            calls: [None, None, None],
            silent: 0,
        }
    }

    /// The bench of a run that drives some calls alone.
    pub fn only(calls: Vec<usize>, calls_path: &str, wanted: usize, whole: String) -> Bench {
        Bench { only: Some(calls), ..Bench::new(calls_path, "", wanted, whole) }
    }

    pub fn drives(&self, call: usize) -> bool {
        self.only.as_ref().is_none_or(|only| only.contains(&call))
    }

    pub fn drives_desk(&self) -> bool {
        self.only.is_none()
    }

    /// One of these calls by chance; where some alone are driven, one of those, and of these if any of these is.
    pub fn some_call(&self, calls: &[usize], chance: &mut Chance) -> usize {
        let driven: Vec<usize> = calls.iter().copied().filter(|&call| self.drives(call)).collect();
        match &self.only {
            Some(only) if driven.is_empty() => chance.pick(only),
            _ => chance.pick(&driven),
        }
    }

    /// A program that hangs at every turn must not hold the run for hours.
    fn patience(&self, most: Duration) -> Duration {
        if self.silent < FEW {
            most
        } else {
            LITTLE_PATIENCE
        }
    }

    fn heed<T>(&mut self, found: Result<T, String>) -> Result<T, String> {
        self.silent += usize::from(found.as_ref().is_err_and(|why| why == LATE));
        found
    }

    /// True once the run has made its calls; what is tried after that is left out.
    pub fn enough(&self) -> bool {
        self.tally.calls >= self.wanted
    }

    /// The driven program's response, from a process that is kept until it fails.
    pub fn ask(&mut self, request: &Request) -> Result<Response, String> {
        self.send(ALONE, request)?;
        self.hear(ALONE, request)
    }

    /// Sends a request to one of the kept programs.
    fn send(&mut self, place: usize, request: &Request) -> Result<(), String> {
        if self.calls[place].is_none() {
            self.calls[place] = Some(Driven::start(&self.calls_path)?);
        }
        if let Some(calls) = &mut self.calls[place] {
            calls.send(bytes_of(&request.words()));
        }
        Ok(())
    }

    /// The response to the request that was sent there.
    fn hear(&mut self, place: usize, request: &Request) -> Result<Response, String> {
        let mut calls = self.calls[place].take().ok_or("the program did not start")?;
        let response = calls.response(request.shape().lent().count(), self.patience(PATIENCE));
        let response = self.heed(response)?;
        self.calls[place] = Some(calls);
        Ok(response)
    }

    /// All that a program of its own writes for some input until it ends.
    pub fn output(&mut self, path: &str, most: Duration, feed: impl FnOnce(&mut Driven)) -> Result<Vec<u8>, String> {
        let mut program = Driven::start(path)?;
        feed(&mut program);
        let found = program.rest(self.patience(most));
        self.heed(found)
    }

    /// Compares a call with what it must answer; the response where they agree. Wherever a volume is asked, the exact sum
    /// of the same stage is asked too, and wherever a thinning is, the plain engine is asked for the same.
    pub fn try_call(&mut self, kind: &str, request: &Request) -> Option<Response> {
        if request.call == VOLUME {
            self.try_call(kind, &Request { call: EXACT_SUM, ..request.clone() });
        }
        let thinning = request.call == THIN && self.drives(THIN_PLAIN);
        if self.enough() || !(thinning || self.drives(request.call)) {
            return None;
        }
        self.try_against(kind, request, &answer(request))
    }

    /// Compares a call with a response worked out elsewhere, and a thinning by the plain engine with the same.
    pub fn try_against(&mut self, kind: &str, request: &Request, expected: &Response) -> Option<Response> {
        if request.call == THIN {
            self.try_against(kind, &Request { call: THIN_PLAIN, ..request.clone() }, expected);
        }
        if self.enough() || !self.drives(request.call) {
            return None;
        }
        self.tally.note(request, expected);
        let found = self.ask(request);
        self.compare(kind, ALONE, request, expected, found)
    }

    /// Compares calls that hang on none before them, two at a time, and hands on, in their order, what was found of
    /// those that agree.
    pub fn try_all<T>(
        &mut self,
        calls: impl Iterator<Item = Sent<T>>,
        mut then: impl FnMut(&mut Bench, Sent<T>, Response),
    ) {
        let mut waiting = VecDeque::new();
        let mut heard = |bench: &mut Bench, (place, call, sent): (usize, Sent<T>, Result<(), String>)| {
            let found = sent.and_then(|()| bench.hear(place, &call.request));
            if let Some(found) = bench.compare(call.kind, place, &call.request, &call.expected, found) {
                then(bench, call, found);
            }
        };
        for (call, place) in calls.zip(BESIDE.into_iter().cycle()) {
            if self.enough() || !self.drives(call.request.call) {
                break;
            }
            // A program has one request at a time.
            if waiting.len() == BESIDE.len() {
                if let Some(first) = waiting.pop_front() {
                    heard(self, first);
                }
            }
            self.tally.note(&call.request, &call.expected);
            let sent = self.send(place, &call.request);
            waiting.push_back((place, call, sent));
        }
        waiting.into_iter().for_each(|call| heard(self, call));
    }

    /// Notes what came of a call: the response where it is what must be answered.
    fn compare(
        &mut self,
        kind: &str,
        place: usize,
        request: &Request,
        expected: &Response,
        found: Result<Response, String>,
    ) -> Option<Response> {
        let (wrong, found) = match found {
            Ok(found) => (difference(request, expected, &found), Some(found)),
            Err(why) => (Some(format!("{}: {why}", request.named())), None),
        };
        let wrong = wrong.map(|what| what + &job_told(request));
        if wrong.is_some() {
            // What a program that errs has still to write must not be read as its next answer.
            self.calls[place] = None;
        }
        let path = self.calls_path.clone();
        let passed = self.tally.verdict(kind, wrong, || format!("apart again {path} '{}'", written(&request.words())));
        found.filter(|_| passed)
    }

    /// Runs the desk on a sheet and compares its whole text.
    pub fn try_desk(&mut self, kind: &str, sheet: &[u8]) {
        if self.enough() || !self.drives_desk() {
            return;
        }
        let expected = desk::text(sheet);
        let found = self.output(&self.desk_path.clone(), PATIENCE, |program| {
            program.send(sheet.to_vec());
            program.close();
        });
        let words: Vec<Word> = sheet.iter().map(|&byte| byte.into()).collect();
        let again = format!("apart again-desk {} '{}'", self.desk_path, written(&words));
        self.desk_verdict(kind, &again, &expected, found);
    }

    /// Notes what came of a sheet that was sent in a way of its own.
    pub fn sent_verdict(&mut self, kind: &str, expected: &str, found: Result<Vec<u8>, String>) {
        self.desk_verdict(kind, &self.whole.clone(), expected, found);
    }

    fn desk_verdict(&mut self, kind: &str, again: &str, expected: &str, found: Result<Vec<u8>, String>) {
        self.tally.note_desk();
        let wrong = desk_difference(expected, found);
        self.tally.verdict(kind, wrong, || again.to_string());
    }

    /// What came of bytes sent to a `calls` of their own: the answers to these requests were to come, then the end.
    pub fn ends_verdict(&mut self, kind: &str, sent: &[u8], answered: &[Request], found: Result<Vec<u8>, String>) {
        self.tally.calls += 1;
        let wrong = match found {
            Ok(found) => bytes_difference(answered, &found),
            Err(why) => Some(format!("the program must end: {why}")),
        };
        let words = sent.chunks_exact(8).map(|word| Word::from_le_bytes(word.try_into().expect("eight bytes")));
        let words: Vec<Word> = words.collect();
        let again = if sent.len() % 8 == 0 {
            format!("apart again {} '{}'", self.calls_path, written(&words))
        } else {
            self.whole.clone()
        };
        self.tally.verdict(kind, wrong, || again.clone());
    }

    /// Notes a property that needs no second working out.
    pub fn property(&mut self, kind: &str, holds: bool, what: &str, request: &Request) {
        let wrong = (!holds).then(|| format!("{}: {what}", request.named()));
        let whole = self.whole.clone();
        self.tally.verdict(kind, wrong, || format!("{whole}, the call '{}'", written(&request.words())));
    }
}

/// A job's sheet, as a failure tells it beside the words; of a long one its beginning.
fn job_told(request: &Request) -> String {
    if request.call != JOB {
        return String::new();
    }
    let sheet: Vec<u8> = request.arguments[0].iter().map(|&word| word as u8).take(1_200).collect();
    format!(", for {} bytes \"{}\"", request.arguments[0].len(), sheet.escape_ascii())
}

/// The first request whose response does not stand at its place among the bytes, or what stands behind them all.
fn bytes_difference(answered: &[Request], found: &[u8]) -> Option<String> {
    let mut left = found;
    for request in answered {
        let expected = bytes_of(&answer(request).words());
        match left.strip_prefix(&expected[..]) {
            Some(rest) => left = rest,
            None => {
                let at = (0..).find(|&at| expected.get(at) != left.get(at)).unwrap_or(0);
                return Some(format!("{}: byte {at} of its response differs", request.named()));
            }
        }
    }
    (!left.is_empty()).then(|| format!("{} bytes were written where none were to come", left.len()))
}

pub fn desk_difference(expected: &str, found: Result<Vec<u8>, String>) -> Option<String> {
    match found {
        Err(why) => Some(format!("the desk: {why}")),
        Ok(found) if found == expected.as_bytes() => None,
        Ok(found) => {
            let at = (0..).find(|&at| expected.as_bytes().get(at) != found.get(at)).unwrap_or(0);
            let line = |text: &[u8]| {
                let start = text[..at.min(text.len())].iter().rposition(|&b| b == b'\n').map_or(0, |n| n + 1);
                let line = text[start..].split(|&b| b == b'\n').next().unwrap_or(&[]);
                String::from_utf8_lossy(&line[..line.len().min(120)]).into_owned()
            };
            Some(format!(
                "the desk: byte {at}: expected line {:?}, found line {:?}",
                line(expected.as_bytes()),
                line(&found)
            ))
        }
    }
}

//! What was tried and what came of it: counts for the summary, failures printed with the call that shows them again.

use crate::figures::{HALF, SIX_CUBIC_METRES};
use crate::flip_kinds;
use crate::harm::asked;
use crate::job::{self, Entry, DEEPEST, LARGEST_SUM, MOST_ENTRIES, SOLID, VOID};
use crate::jobs::{PAST_63, PAST_64};
use crate::limit::{whole_centimetres, FEET, INTERNATIONAL_FEET};
use crate::log_sheet::{self, most_records, LONGEST_ANSWER};
use crate::protocol::*;
use crate::refusal;
use crate::skin::{MOST_CORNERS, MOST_ROWS};
use crate::step::WIDTH;
use std::collections::{BTreeMap, BTreeSet};

/// Failures past this many, of one kind and in all, are counted and no longer printed.
const PRINTED_OF_A_KIND: usize = 3;
const PRINTED: usize = 40;
pub const MANY_ROWS: usize = 256;

#[derive(Default)]
pub struct Tally {
    pub calls: usize,
    passed: usize,
    failed: usize,
    printed: usize,
    kinds: BTreeMap<String, (usize, usize)>,
    /// Calls by number and by the status that they must answer.
    by_call: BTreeMap<usize, BTreeMap<Word, usize>>,
    desk_runs: usize,
    met: BTreeMap<String, usize>,
    many_rows: usize,
}

/// What a whole run must have met at least once, besides every refusal and the kinds of flips.
const MUST_MEET: [&str; 73] = [
    "a sphere",
    "a torus",
    "genus 2",
    "genus 3",
    "genus 4",
    "genus 5",
    "a shaft",
    "the most rows",
    "the most corners",
    "a limit that returned to a lower corner",
    "a limit that parts the two feet",
    "a limit usable in international feet alone",
    "a thinning under a limit that parts the two feet",
    "a sum at a half above zero",
    "a sum at a half below zero",
    "growing back that did some records before 13",
    "replay that did some records before 13",
    "a stage grown freely",
    "an accepted stage with unused corners",
    "the most records written",
    "the most records read",
    "more records one at a time than the corners allow",
    "a log sheet of the most bytes",
    "the longest answer",
    "recovery that did some records before 13",
    "recovery that replayed some records and went on",
    "recovery that replayed the most records",
    "recovery from a sheet of the most bytes",
    "a log cut after every byte",
    "a longer log cut",
    "another order that ended elsewhere",
    "an exact sum below zero with a rest",
    "a job of real stages",
    "a topmost void",
    "a topmost solid",
    "a job of the most entries",
    "a job of one entry too many",
    "a job of no entry",
    "a job as deep as may be",
    "a job one too deep",
    "a sum at the bound above zero",
    "a sum at the bound below zero",
    "a sum just beyond the bound above zero",
    "a sum just beyond the bound below zero",
    "a net at a half above zero",
    "a net at a half below zero",
    "a net past 64 bits above zero",
    "a net past 64 bits below zero",
    "a net past 63 bits that 64 hold",
    "a job sheet of the most bytes in form",
    "a table flipped both ways round",
    "a record with a row turned, undone",
    "a row of the table turned, not undone",
    "records exchanged, not undone",
    "records exchanged, undone all the same",
    "a flip log of another skin, not undone",
    "a record that no flip wrote, undone",
    "a flipped skin measured",
    "a flipped skin thinned",
    "a thinned skin flipped",
    "a flipped skin run down to its end",
    "a hub numbered first",
    "a hub numbered in the middle",
    "a hub numbered last",
    "a hub of several hundred neighbours",
    "corners of three neighbours by the hundred",
    "shuffled numbers on the most rows",
    "several handles on many rows",
    "both engines under a limit",
    "both engines down to a tetrahedron",
    "both engines down to handles",
    "recovery without limit from a part of a log",
    "recovery without limit where numbers are unused",
];

impl Tally {
    pub fn pass(&mut self, kind: &str) {
        self.passed += 1;
        self.kinds.entry(kind.to_string()).or_default().0 += 1;
    }

    pub fn fail(&mut self, kind: &str, what: &str, again: &str) {
        self.failed += 1;
        let of_kind = &mut self.kinds.entry(kind.to_string()).or_default().1;
        *of_kind += 1;
        if *of_kind <= PRINTED_OF_A_KIND && self.printed < PRINTED {
            self.printed += 1;
            println!("FAILED {kind}: {what}");
            if !again.is_empty() {
                println!("  again: {again}");
            }
        }
    }

    pub fn verdict(&mut self, kind: &str, wrong: Option<String>, again: impl Fn() -> String) -> bool {
        match &wrong {
            None => self.pass(kind),
            Some(what) => self.fail(kind, what, &again()),
        }
        wrong.is_none()
    }

    /// Notes a call and what it must answer.
    pub fn note(&mut self, request: &Request, expected: &Response) {
        self.calls += 1;
        let status = if request.shape().refused > 0 { expected.answer[0] } else { 0 };
        *self.by_call.entry(request.call).or_default().entry(status).or_default() += 1;
        let rows = rows_worked(request);
        if !refusal::BEFORE_ROWS.contains(&status) {
            self.many_rows += usize::from(rows > MANY_ROWS);
            self.meet_if(rows == MOST_ROWS, "the most rows");
        }
        let partly = status == refusal::FAILS && expected.answer[1] > 0;
        self.meet_if(partly && request.call == GROW_BACK, "growing back that did some records before 13");
        self.meet_if(partly && request.call == REPLAY, "replay that did some records before 13");
        self.meet_if(partly && request.call == RECOVER, "recovery that did some records before 13");
        if status == 0 {
            self.note_log_sheet(request, expected);
        }
        flip_kinds::of(request, expected).into_iter().for_each(|kind| self.meet(kind));
        match request.call {
            JOB => self.note_job(&request.arguments[0], status),
            EXACT_SUM => {
                let below = expected.answer[1] < 0 && expected.answer[2] > 0;
                self.meet_if(below, "an exact sum below zero with a rest");
            }
            _ => {}
        }
        if [LIMIT, THIN, THIN_PLAIN].contains(&request.call)
            && [FEET, INTERNATIONAL_FEET].contains(&request.arguments[0][0])
        {
            self.note_feet(request, status);
        }
    }

    /// A figure in feet, where survey feet and international feet do not give the same.
    fn note_feet(&mut self, request: &Request, status: Word) {
        let feet = [FEET, INTERNATIONAL_FEET].map(|unit| whole_centimetres(unit, request.arguments[1][0] as u64));
        match (request.call, feet) {
            (LIMIT, [None, Some(_)]) => self.meet("a limit usable in international feet alone"),
            (LIMIT, [survey, international]) => {
                self.meet_if(survey != international, "a limit that parts the two feet")
            }
            (_, [survey, international]) => {
                self.meet_if(status == 0 && survey != international, "a thinning under a limit that parts the two feet")
            }
        }
    }

    /// Log sheets at their limits, done.
    fn note_log_sheet(&mut self, request: &Request, expected: &Response) {
        let most = most_records(MOST_CORNERS);
        match request.call {
            WRITE_LOG_SHEET => self.meet_if(request.arguments[2].len() == WIDTH * most, "the most records written"),
            READ_LOG_SHEET => self.meet_if(expected.answer[3] == most as Word, "the most records read"),
            READ_RECORDS => {
                let more = expected.answer[3] as usize > most_records(expected.answer[1] as usize);
                self.meet_if(more, "more records one at a time than the corners allow");
                let bytes = request.arguments[0].len();
                self.meet_if(bytes == log_sheet::MOST_BYTES, "a log sheet of the most bytes");
                self.meet_if(expected.answer.len() == LONGEST_ANSWER, "the longest answer");
            }
            RECOVER => {
                let [replayed, all] = [expected.answer[1], expected.answer[2]];
                self.meet_if(0 < replayed && replayed < all, "recovery that replayed some records and went on");
                self.meet_if(replayed == most as Word, "recovery that replayed the most records");
                let bytes = request.arguments[5].len();
                self.meet_if(bytes == log_sheet::MOST_BYTES, "recovery from a sheet of the most bytes");
            }
            _ => {}
        }
    }

    /// Jobs in form at their limits, done or refused by just one too much.
    fn note_job(&mut self, sheet: &[Word], status: Word) {
        let bytes: Vec<u8> = sheet.iter().map(|&word| word as u8).collect();
        let Some(job) = job::entries(&bytes) else { return };
        let sum = |sum: i128| job.iter().any(|entry| entry.sum == sum);
        match status {
            0 => self.note_job_done(&job),
            refusal::ENTRIES => {
                self.meet_if(job.len() == MOST_ENTRIES + 1, "a job of one entry too many");
                self.meet_if(job.is_empty(), "a job of no entry");
                self.meet_if(bytes.len() == job::MOST_BYTES, "a job sheet of the most bytes in form");
            }
            refusal::DEPTH => self.meet_if(job::deepest(&job) == DEEPEST + 1, "a job one too deep"),
            refusal::SUM => {
                self.meet_if(sum(LARGEST_SUM + 1), "a sum just beyond the bound above zero");
                self.meet_if(sum(-LARGEST_SUM - 1), "a sum just beyond the bound below zero");
            }
            _ => {}
        }
    }

    fn note_job_done(&mut self, job: &[Entry]) {
        let sum = |sum: i128| job.iter().any(|entry| entry.sum == sum);
        let net = job::net(job, 0);
        let met = [
            (job[0].letter == VOID, "a topmost void"),
            (job[0].letter == SOLID, "a topmost solid"),
            (job.len() == MOST_ENTRIES, "a job of the most entries"),
            (job::deepest(job) == DEEPEST, "a job as deep as may be"),
            (sum(LARGEST_SUM), "a sum at the bound above zero"),
            (sum(-LARGEST_SUM), "a sum at the bound below zero"),
            (net % SIX_CUBIC_METRES == HALF, "a net at a half above zero"),
            (net % SIX_CUBIC_METRES == -HALF, "a net at a half below zero"),
            (net >= PAST_64, "a net past 64 bits above zero"),
            (net <= -PAST_64, "a net past 64 bits below zero"),
            ((PAST_63..PAST_64).contains(&net), "a net past 63 bits that 64 hold"),
        ];
        met.into_iter().for_each(|(met, kind)| self.meet_if(met, kind));
    }

    /// How often a refusal was to come, over all calls.
    fn refusals(&self, number: Word) -> usize {
        self.by_call.values().filter_map(|statuses| statuses.get(&number)).sum()
    }

    pub fn note_desk(&mut self) {
        self.calls += 1;
        self.desk_runs += 1;
    }

    /// Counts an input of a kind that a whole run must meet.
    pub fn meet(&mut self, kind: &str) {
        *self.met.entry(kind.to_string()).or_default() += 1;
    }

    pub fn meet_if(&mut self, met: bool, kind: &str) {
        if met {
            self.meet(kind);
        }
    }

    /// A call that was never made, or never done, or one of its refusals that never came, is a failure of its own. The
    /// desk's answer tells them in its text.
    pub fn ask_for_call(&mut self, call: &Call) {
        let refusals = if call.number == DESK_ANSWER { vec![] } else { asked(call.number) };
        let numbers: BTreeSet<Word> = refusals.iter().map(|harm| harm.number()).chain([0]).collect();
        for number in numbers {
            let met = self.by_call.get(&call.number).is_some_and(|statuses| statuses.contains_key(&number));
            let what = || format!("{} (call {}) never with status {number}", call.name, call.number);
            self.verdict("every call met with its refusals", (!met).then(what), String::new);
        }
    }

    /// A refusal, or another kind of input, that a whole run never met is a failure of its own.
    pub fn ask_for_all(&mut self) {
        for number in refusal::ALL {
            let never = self.refusals(number) == 0;
            self.verdict("every refusal met", never.then(|| format!("refusal {number} never occurred")), String::new);
        }
        for kind in MUST_MEET.into_iter().chain(flip_kinds::all()) {
            let never = !self.met.contains_key(kind);
            self.verdict("every kind of input met", never.then(|| format!("{kind} never occurred")), String::new);
        }
    }

    /// The summary; true when nothing failed.
    pub fn close(&self) -> bool {
        if self.failed > self.printed {
            println!("({} more failures)", self.failed - self.printed);
        }
        for (kind, (passed, failed)) in &self.kinds {
            println!("{kind}: {passed} passed, {failed} failed");
        }
        for call in &CALLS {
            let made = self.by_call.get(&call.number).map_or(0, |statuses| statuses.values().sum());
            if made > 0 {
                println!("call {}, {}: {made}", call.number, call.name);
            }
        }
        println!("the desk program: {}", self.desk_runs);
        for number in refusal::ALL {
            if self.refusals(number) > 0 {
                println!("refusal {number}: {}", self.refusals(number));
            }
        }
        for (kind, count) in &self.met {
            println!("met {kind}: {count}");
        }
        println!("calls: {}, worked on more than {MANY_ROWS} rows: {}", self.calls, self.many_rows);
        println!("{} passed, {} failed", self.passed, self.failed);
        self.failed == 0
    }
}

/// How many rows the call has before it.
fn rows_worked(request: &Request) -> usize {
    let length = |at: usize| request.arguments[at].len() / 3;
    match request.call {
        THIN | THIN_PLAIN | RECOVER => length(2),
        GROW_BACK => (request.arguments[0][0] as usize).saturating_add(2 * (request.arguments[3].len() / WIDTH)),
        REPLAY | FLIP | UNDO => length(1),
        VOLUME | EXACT_SUM => length(0),
        CHANGE => length(0).max(length(1)),
        READ_SHEET | DESK_ANSWER => {
            request.arguments[0].windows(2).filter(|pair| *pair == [Word::from(b'R'), Word::from(b'\t')]).count()
        }
        _ => 0,
    }
}

/// The first word in which two responses differ.
pub fn difference(request: &Request, expected: &Response, found: &Response) -> Option<String> {
    let names = std::iter::once("the answer").chain(request.shape().lent().map(|(_, argument)| argument.name));
    let lists = |r: &Response| -> Vec<Vec<Word>> { std::iter::once(r.answer.clone()).chain(r.lent.clone()).collect() };
    for ((name, expected), found) in names.zip(lists(expected)).zip(lists(found)) {
        let at = (0..expected.len().max(found.len())).find(|&at| expected.get(at) != found.get(at));
        if let Some(at) = at {
            let say = |word: Option<&Word>| word.map_or("nothing".to_string(), Word::to_string);
            let (named, expected, found) = (request.named(), say(expected.get(at)), say(found.get(at)));
            return Some(format!("{named}: word {at} of {name}: expected {expected}, found {found}"));
        }
    }
    None
}

/// Words as text; a run of one word is written `times*word`.
pub fn written(words: &[Word]) -> String {
    let mut text = Vec::new();
    let mut at = 0;
    while at < words.len() {
        let run = words[at..].iter().take_while(|&&word| word == words[at]).count();
        if run > 3 {
            text.push(format!("{run}*{}", words[at]));
            at += run;
        } else {
            text.push(words[at].to_string());
            at += 1;
        }
    }
    text.join(" ")
}

/// The words of such a text.
pub fn words_of(text: &str) -> Option<Vec<Word>> {
    let mut words = Vec::new();
    for part in text.split_whitespace() {
        let (times, word) = part.split_once('*').unwrap_or(("1", part));
        words.extend(std::iter::repeat_n(word.parse::<Word>().ok()?, times.parse().ok()?));
    }
    Some(words)
}

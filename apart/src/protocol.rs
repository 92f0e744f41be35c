//! The pipe protocol: the calls with their arguments, and requests and responses as words.

use crate::step::WIDTH;

/// 8 bytes, little-endian, two's complement.
pub type Word = i64;

pub const LONGEST_LIST: usize = 16_384;
const LONGEST_BYTES: usize = 131_072;
/// The highest unit so far.
pub const LAST_UNIT: Word = 4;

#[derive(Clone, Copy, PartialEq, Debug)]
pub enum Kind {
    /// A unit, 0 for no limit among them.
    OrderUnit,
    /// A unit that names one.
    LimitUnit,
    /// Any word, read as unsigned 64 bits.
    Whole,
    /// One unsigned number of 32 bits.
    Number,
    /// Lists.
    Numbers,
    Coordinates,
    Bytes,
}

impl Kind {
    pub fn is_list(self) -> bool {
        matches!(self, Kind::Numbers | Kind::Coordinates | Kind::Bytes)
    }

    pub fn longest(self) -> usize {
        if self == Kind::Bytes {
            LONGEST_BYTES
        } else {
            LONGEST_LIST
        }
    }

    pub fn takes(self, word: Word) -> bool {
        match self {
            Kind::OrderUnit => (0..=LAST_UNIT).contains(&word),
            Kind::LimitUnit => (1..=LAST_UNIT).contains(&word),
            Kind::Whole => true,
            Kind::Number | Kind::Numbers => u32::try_from(word).is_ok(),
            Kind::Coordinates => i32::try_from(word).is_ok(),
            Kind::Bytes => u8::try_from(word).is_ok(),
        }
    }
}

pub struct Argument {
    pub name: &'static str,
    pub kind: Kind,
    pub lent: bool,
}

const fn read(name: &'static str, kind: Kind) -> Argument {
    Argument { name, kind, lent: false }
}

const fn lent(name: &'static str, kind: Kind) -> Argument {
    Argument { name, kind, lent: true }
}

pub struct Call {
    pub number: usize,
    pub name: &'static str,
    pub arguments: &'static [Argument],
    /// How many words the answer has when the call refuses; 0 for a call that can't.
    pub refused: usize,
}

impl Call {
    /// A sheet of any kind is read, so what it is asked comes in the work.
    pub fn reads_sheet(&self) -> bool {
        self.arguments.iter().any(|argument| argument.kind == Kind::Bytes && !argument.lent)
    }

    pub fn lent(&self) -> impl Iterator<Item = (usize, &'static Argument)> {
        self.arguments.iter().enumerate().filter(|(_, argument)| argument.lent)
    }
}

const fn call(number: usize, name: &'static str, refused: usize, arguments: &'static [Argument]) -> Call {
    Call { number, name, arguments, refused }
}

pub const THIN: usize = 1;
pub const GROW_BACK: usize = 2;
pub const REPLAY: usize = 3;
pub const VOLUME: usize = 4;
pub const CHANGE: usize = 5;
pub const SHIFT: usize = 6;
pub const LIMIT: usize = 7;
pub const SHORTER_RING: usize = 8;
pub const CATCH_UP: usize = 9;
pub const READ_SHEET: usize = 10;
pub const TRIAL_RING: usize = 11;
pub const DESK_ANSWER: usize = 12;
pub const WRITE_LOG_SHEET: usize = 13;
pub const READ_LOG_SHEET: usize = 14;
pub const READ_RECORDS: usize = 15;
pub const RECOVER: usize = 16;
pub const JOB: usize = 17;
pub const FLIP: usize = 18;
pub const UNDO: usize = 19;
pub const THIN_PLAIN: usize = 20;
pub const OPEN_LOG_SHEET: usize = 24;
pub const RECORD_AT: usize = 25;
pub const EXACT_SUM: usize = 26;
pub const LOG_SHEET_CALLS: [usize; 5] = [WRITE_LOG_SHEET, READ_LOG_SHEET, READ_RECORDS, OPEN_LOG_SHEET, RECORD_AT];

use Kind::*;

/// What a thinning is given, by either engine.
const THINNING: [Argument; 5] = [
    read("unit", OrderUnit),
    read("bits", Whole),
    lent("table", Numbers),
    read("corners", Coordinates),
    lent("log", Numbers),
];

/// The calls in the order of their numbers; the numbers between are kept for later requests.
pub static CALLS: [Call; 23] = [
    call(THIN, "thin", 2, &THINNING),
    call(
        GROW_BACK,
        "grow back",
        2,
        &[read("rows told", Whole), read("corner count", Whole), lent("room", Numbers), read("log", Numbers)],
    ),
    call(REPLAY, "replay", 2, &[read("corner count", Whole), lent("table", Numbers), read("log", Numbers)]),
    call(VOLUME, "volume", 2, &[read("table", Numbers), read("corners", Coordinates)]),
    call(
        CHANGE,
        "change",
        2,
        &[read("earlier table", Numbers), read("later table", Numbers), read("corners", Coordinates)],
    ),
    call(SHIFT, "shift", 4, &[read("corner", Number), read("corners", Coordinates), read("log", Numbers)]),
    call(LIMIT, "limit", 2, &[read("unit", LimitUnit), read("bits", Whole)]),
    call(SHORTER_RING, "shorter ring", 0, &[read("first", Numbers), read("second", Numbers)]),
    call(CATCH_UP, "catch up", 0, &[read("first", Numbers), read("second", Numbers)]),
    call(READ_SHEET, "read a sheet", 3, &[read("bytes", Bytes), lent("table", Numbers), lent("corners", Coordinates)]),
    call(TRIAL_RING, "trial ring", 0, &[]),
    call(DESK_ANSWER, "the desk's answer", 2, &[read("bytes", Bytes), lent("text", Bytes)]),
    call(
        WRITE_LOG_SHEET,
        "write a log sheet",
        2,
        &[read("corner count", Whole), read("rows", Whole), read("log", Numbers), lent("text", Bytes)],
    ),
    call(READ_LOG_SHEET, "read a log sheet", 4, &[read("bytes", Bytes), lent("log", Numbers)]),
    call(READ_RECORDS, "log records one at a time", 4, &[read("bytes", Bytes)]),
    call(
        RECOVER,
        "recover",
        3,
        &[
            read("unit", OrderUnit),
            read("bits", Whole),
            lent("table", Numbers),
            read("corners", Coordinates),
            lent("log", Numbers),
            read("bytes", Bytes),
        ],
    ),
    call(JOB, "job sheet", 2, &[read("bytes", Bytes)]),
    call(
        FLIP,
        "flip a list",
        2,
        &[read("corner count", Whole), lent("table", Numbers), read("edges", Numbers), lent("flip log", Numbers)],
    ),
    call(UNDO, "undo flips", 2, &[read("corner count", Whole), lent("table", Numbers), read("flip log", Numbers)]),
    call(THIN_PLAIN, "thin by the plain engine", 2, &THINNING),
    call(OPEN_LOG_SHEET, "open a log sheet", 4, &[read("bytes", Bytes)]),
    call(RECORD_AT, "the record at a place", 3 + WIDTH, &[read("bytes", Bytes), read("place", Whole)]),
    call(EXACT_SUM, "exact sum of a stage", 3, &[read("table", Numbers), read("corners", Coordinates)]),
];

/// The call of a number, where there is one.
pub fn call_of(number: usize) -> Option<&'static Call> {
    CALLS.iter().find(|call| call.number == number)
}

/// A call with its arguments; a scalar is a list of one word here.
#[derive(Clone)]
pub struct Request {
    pub call: usize,
    pub arguments: Vec<Vec<Word>>,
}

impl Request {
    pub fn shape(&self) -> &'static Call {
        call_of(self.call).expect("a request has one of the calls")
    }

    /// What a failure calls it.
    pub fn named(&self) -> String {
        format!("{} (call {})", self.shape().name, self.call)
    }

    pub fn words(&self) -> Vec<Word> {
        let mut words = vec![self.call as Word];
        for (argument, given) in self.shape().arguments.iter().zip(&self.arguments) {
            if argument.kind.is_list() {
                words.push(given.len() as Word);
            }
            words.extend(given);
        }
        words
    }

    /// Reads one request; nothing where a word, a length, a call or a unit is none, or the words run out.
    pub fn read(next: &mut impl FnMut() -> Option<Word>) -> Option<Request> {
        let call = call_of(usize::try_from(next()?).ok()?)?;
        let mut arguments = Vec::new();
        for argument in call.arguments {
            let length = if argument.kind.is_list() { usize::try_from(next()?).ok()? } else { 1 };
            if length > argument.kind.longest() {
                return None;
            }
            let given: Option<Vec<Word>> =
                (0..length).map(|_| next().filter(|&word| argument.kind.takes(word))).collect();
            arguments.push(given?);
        }
        Some(Request { call: call.number, arguments })
    }
}

/// The answer, then each lent list as it stands after the call.
#[derive(Clone, PartialEq, Debug)]
pub struct Response {
    pub answer: Vec<Word>,
    pub lent: Vec<Vec<Word>>,
}

impl Response {
    pub fn words(&self) -> Vec<Word> {
        let lists = std::iter::once(&self.answer).chain(&self.lent);
        lists.flat_map(|list| std::iter::once(list.len() as Word).chain(list.iter().copied())).collect()
    }

    /// The answer without the lent lists of a request, which stand as they came.
    pub fn untouched(request: &Request, answer: Vec<Word>) -> Response {
        let lent = request.shape().lent().map(|(at, _)| request.arguments[at].clone()).collect();
        Response { answer, lent }
    }
}

pub fn bytes_of(words: &[Word]) -> Vec<u8> {
    words.iter().flat_map(|word| word.to_le_bytes()).collect()
}

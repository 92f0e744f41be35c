//! Damage: one harm for each line of the refusal table, done to an honest input of any call.

use crate::chance::Chance;
use crate::flip;
use crate::flips;
use crate::job::{self, Entry};
use crate::jobs;
use crate::log_sheet::{self, most_records};
use crate::make::{tetrahedron, Skin};
use crate::protocol::*;
use crate::refusal::{self, BAD_FORM, FAILS};
use crate::sheet;
use crate::skin::{corners_of, rows_of, Edges, FARTHEST, FEWEST, MOST_CORNERS, MOST_ROWS};
use crate::step::{Record, WIDTH};
use crate::typed;
use std::collections::BTreeSet;

#[derive(Clone, Copy, PartialEq, Debug)]
pub enum Harm {
    Limit,
    Counts,
    Room,
    Coordinate,
    Number,
    NumberTwice,
    EdgeTwice,
    Reverse,
    Unused,
    Rings,
    Connected,
    Records,
    Log,
    SheetSize,
    SheetFirstLine,
    SheetLines,
    /// A first line of a log sheet whose counts are not the skin's.
    OtherCounts,
    /// Those of a job's entries.
    Entries,
    Letter,
    Naming,
    Alternation,
    Depth,
    Sum,
    /// Those of a list of edges, and that of a flip log.
    Missing,
    Neighbours,
    FlipLog,
}

use Harm::*;

impl Harm {
    /// The refusal it calls for.
    pub fn number(self) -> i64 {
        match self {
            Limit => 1,
            Counts | Records | OtherCounts => 2,
            Room => 3,
            Coordinate => 4,
            Number => 5,
            NumberTwice => 6,
            EdgeTwice => 7,
            Reverse => 8,
            Unused => 9,
            Rings => 10,
            Connected => 11,
            SheetSize | SheetFirstLine | SheetLines => BAD_FORM,
            Log => FAILS,
            Entries => refusal::ENTRIES,
            Letter => refusal::KIND,
            Naming => refusal::NAME,
            Alternation => refusal::ALTERNATION,
            Depth => refusal::DEPTH,
            Sum => refusal::SUM,
            Missing => refusal::MISSING,
            Neighbours => refusal::NEIGHBOURS,
            FlipLog => refusal::NOT_UNDONE,
        }
    }
}

/// What each call asks, in its order.
pub fn asked(call: usize) -> Vec<Harm> {
    let rows = [Number, NumberTwice, EdgeTwice, Reverse];
    let form = [SheetSize, SheetFirstLine, Counts, SheetLines];
    let rings = [Rings, Connected];
    match call {
        THIN | THIN_PLAIN => [&[Limit, Counts, Room, Coordinate], &rows[..], &[Unused], &rings].concat(),
        GROW_BACK => [&[Counts, Room], &rows[..], &rings, &[Log]].concat(),
        REPLAY => [&[Counts], &rows[..], &rings, &[Log]].concat(),
        VOLUME | EXACT_SUM | CHANGE => [&[Counts, Coordinate], &rows[..], &rings].concat(),
        SHIFT => vec![Counts, Coordinate, Number],
        LIMIT => vec![Limit],
        READ_SHEET => [&form[..], &[Room, Coordinate], &rows, &[Unused], &rings].concat(),
        // The desk lends its own rooms.
        DESK_ANSWER => [&form[..], &[Coordinate], &rows, &[Unused], &rings].concat(),
        WRITE_LOG_SHEET => vec![Counts, Records, Room],
        // All lines before any count.
        READ_LOG_SHEET => vec![SheetSize, SheetFirstLine, SheetLines, Counts, Records, Room],
        READ_RECORDS => form.to_vec(),
        RECOVER => {
            let sheet = [SheetSize, SheetFirstLine, SheetLines, OtherCounts, Records];
            [&asked(THIN)[..], &sheet, &[Log]].concat()
        }
        JOB => {
            let form = [SheetSize, SheetFirstLine, SheetLines];
            [&form[..], &[Entries, Letter, Naming, Alternation, Depth, Sum]].concat()
        }
        // The last two are asked edge by edge.
        FLIP => [&[Counts, Room], &rows[..], &rings, &[Missing, Neighbours]].concat(),
        UNDO => [&[Counts], &rows[..], &rings, &[FlipLog]].concat(),
        OPEN_LOG_SHEET => vec![SheetSize, SheetFirstLine, Counts],
        RECORD_AT => vec![SheetLines],
        _ => vec![],
    }
}

/// What any call is given; a call takes from it what it needs.
#[derive(Clone)]
pub struct Input {
    pub order: (i64, u64),
    pub table: Vec<u32>,
    pub later: Vec<u32>,
    pub coordinates: Vec<i32>,
    pub log: Vec<u32>,
    pub corner: u32,
    pub job: Vec<Entry>,
    pub edges: Vec<u32>,
    pub flip_log: Vec<u32>,
    /// Rows told and corner count, where they are other than the lists say.
    pub told: Option<u64>,
    pub count: Option<u64>,
    /// Room lent past the need; below zero the room is short.
    pub spare: i64,
    /// Harm to the text of a sheet, done once it is written.
    pub text: Vec<Harm>,
}

impl Input {
    pub fn new(skin: &Skin, log: &[Record]) -> Input {
        Input {
            order: (0, 0),
            table: skin.table(),
            later: skin.table(),
            coordinates: skin.coordinates(),
            log: log.concat(),
            corner: 0,
            job: jobs::station(),
            edges: Vec::new(),
            flip_log: Vec::new(),
            told: None,
            count: None,
            spare: 0,
            text: Vec::new(),
        }
    }

    pub fn request(&self, call: usize, chance: &mut Chance) -> Request {
        let table = words(&self.table);
        let coordinates: Vec<Word> = self.coordinates.iter().map(|&n| n.into()).collect();
        let log = words(&self.log);
        let [count, told] = self.counts().map(|n| n as Word);
        let (unit, bits) = (self.order.0, self.order.1 as Word);
        let arguments = match call {
            THIN | THIN_PLAIN | RECOVER => {
                let need = WIDTH as i64 * (self.coordinates.len() as i64 / 3 - FEWEST as i64);
                let room = scribble(need + self.spare, chance);
                let sheet = (call == RECOVER).then(|| self.log_sheet(&OF_CUT_LOG_SHEETS, chance));
                [vec![vec![unit], vec![bits], table, coordinates, room], sheet.into_iter().collect()].concat()
            }
            GROW_BACK => {
                let need = 3 * (self.table.len() / 3 + 2 * (log.len() / WIDTH)) as i64;
                let room = [table, scribble(need - self.table.len() as i64 + self.spare.max(0), chance)].concat();
                let length = if self.spare < 0 { (need + self.spare).max(0) as usize } else { room.len() };
                vec![vec![told], vec![count], room[..length.min(room.len())].to_vec(), log]
            }
            REPLAY => vec![vec![count], table, log],
            VOLUME | EXACT_SUM => vec![table, coordinates],
            CHANGE => vec![table, words(&self.later), coordinates],
            SHIFT => vec![vec![self.corner.into()], coordinates, log],
            LIMIT => vec![vec![unit], vec![bits]],
            READ_SHEET => self.sheet_arguments(chance),
            DESK_ANSWER => {
                // A line for every row and one for every record fit, whatever their numbers.
                let room = 60 + 16 * self.table.len() / 3 + 60 * self.coordinates.len() / 3;
                vec![self.sheet(chance), scribble_bytes(room, chance)]
            }
            WRITE_LOG_SHEET => {
                let need = log_sheet::write(count as u64, told as u64, &self.log).len() as i64;
                vec![vec![count], vec![told], log, scribble_bytes((need + self.spare).max(0) as usize, chance)]
            }
            READ_LOG_SHEET => {
                vec![self.log_sheet(&OF_LOG_SHEETS, chance), scribble(log.len() as i64 + self.spare, chance)]
            }
            READ_RECORDS | OPEN_LOG_SHEET => vec![self.log_sheet(&OF_LOG_SHEETS, chance)],
            RECORD_AT => {
                let sheet = self.log_sheet(&OF_LOG_SHEETS, chance);
                let place = self.record_place(&sheet, chance) as Word;
                vec![sheet, vec![place]]
            }
            JOB => vec![self.harmed(job::write(&self.job), &OF_JOB_SHEETS, chance)],
            FLIP => {
                let need = (flip::WIDTH * (self.edges.len() / 2)) as i64;
                vec![vec![count], table, words(&self.edges), scribble(need + self.spare, chance)]
            }
            UNDO => vec![vec![count], table, words(&self.flip_log)],
            _ => unreachable!("no input has another call"),
        };
        Request { call, arguments }
    }

    /// Corner count and rows, as the lists say or other.
    fn counts(&self) -> [u64; 2] {
        let (count, rows) = (self.coordinates.len() as u64 / 3, self.table.len() as u64 / 3);
        [self.count.unwrap_or(count), self.told.unwrap_or(rows)]
    }

    /// The log's sheet as words, its harms done.
    fn log_sheet(&self, most: &Most, chance: &mut Chance) -> Vec<Word> {
        let mut counts = self.counts();
        if self.text.contains(&OtherCounts) {
            counts = other_counts(counts, chance);
        }
        self.harmed(log_sheet::write(counts[0], counts[1], &self.log), most, chance)
    }

    /// A text as words, its harms done.
    fn harmed(&self, mut text: Vec<u8>, most: &Most, chance: &mut Chance) -> Vec<Word> {
        for &harm in &self.text {
            harm_text(&mut text, most, harm, chance);
        }
        text.into_iter().map(Word::from).collect()
    }

    /// Where the line starts that a harm changed; where none did, the start of any behind the first, or the end.
    fn record_place(&self, sheet: &[Word], chance: &mut Chance) -> usize {
        let [count, rows] = self.counts();
        let honest = log_sheet::write(count, rows, &self.log);
        let starts: Vec<usize> = (1..=honest.len()).filter(|&at| honest[at - 1] == b'\n').collect();
        let changed = honest.iter().zip(sheet).position(|(&byte, &word)| Word::from(byte) != word);
        let before = |at: usize| starts.iter().copied().rfind(|&start| start <= at).unwrap_or(0);
        changed.map_or_else(|| chance.pick(&starts), before)
    }

    /// The sheet as words, its harms done.
    pub fn sheet(&self, chance: &mut Chance) -> Vec<Word> {
        self.harmed(sheet::write(&corners_of(&self.coordinates), &rows_of(&self.table)), &OF_SHEETS, chance)
    }

    fn sheet_arguments(&self, chance: &mut Chance) -> Vec<Vec<Word>> {
        let (table, corners) = (self.table.len() as i64, self.coordinates.len() as i64);
        // Only one of the two rooms is short.
        let (short, enough) = (self.spare, self.spare.max(0));
        let (first, second) = if chance.one_in(2) { (short, enough) } else { (enough, short) };
        let room: Vec<Word> = (0..(corners + second).max(0)).map(|_| i64::from(chance.next() as i32)).collect();
        vec![self.sheet(chance), scribble(table + first, chance), room]
    }
}

pub fn words(numbers: &[u32]) -> Vec<Word> {
    numbers.iter().map(|&n| n.into()).collect()
}

/// Numbers that stand in lent room before a call; a call that touches them shows.
pub fn scribble(length: i64, chance: &mut Chance) -> Vec<Word> {
    (0..length.max(0)).map(|_| Word::from(chance.next() as u32)).collect()
}

/// A text with one of its bytes replaced, dropped or doubled, or cut off there: four manners.
pub fn spoiled_at(text: &[u8], at: usize, manner: usize, chance: &mut Chance) -> Vec<u8> {
    let mut spoiled = text.to_vec();
    match manner {
        0 => spoiled[at] = chance.next() as u8,
        1 => drop(spoiled.remove(at)),
        2 => spoiled.insert(at, text[at]),
        _ => spoiled.truncate(at),
    }
    spoiled
}

/// Likewise for text, in runs, so that a call printed to be tried again stays short.
pub fn scribble_bytes(length: usize, chance: &mut Chance) -> Vec<Word> {
    let mut bytes = Vec::new();
    while bytes.len() < length {
        let run = 1 + chance.below(200);
        bytes.extend(vec![Word::from(chance.next() as u8); run]);
    }
    bytes.truncate(length);
    bytes
}

/// Does one harm. Harms of one input touch different rows, so that none undoes another.
pub fn harm(input: &mut Input, call: usize, harm: Harm, chance: &mut Chance) {
    let on_sheet = matches!(call, READ_SHEET | DESK_ANSWER);
    // Recovery is given a skin in lists and a log on a sheet.
    let counts_on_sheet = call != RECOVER && call_of(call).is_some_and(Call::reads_sheet);
    let first_table = on_sheet || matches!(call, THIN | THIN_PLAIN | RECOVER);
    let count = input.coordinates.len() as u32 / 3;
    match harm {
        Limit => input.order = typed::unusable(chance),
        Counts if counts_on_sheet => input.text.push(Counts),
        Counts => harm_counts(input, call, chance),
        // Short by less than a record of growing back, so that the rows themselves stay in the room.
        Room => input.spare = -chance.pick(&[1, 1, 1, 2, 5]),
        Coordinate => {
            let at = chance.below(input.coordinates.len());
            input.coordinates[at] = coordinate_outside(on_sheet, chance);
        }
        Number if call == SHIFT => harm_shift(input, count, chance),
        Number => input.table[6 + chance.below(3)] = number_outside(count, on_sheet, chance),
        NumberTwice => {
            let at = chance.below(3);
            input.table[at] = input.table[(at + 1 + chance.below(2)) % 3];
        }
        EdgeTwice => harm_edge_twice(input, chance),
        Reverse => drop(input.table.drain(9..12)),
        Unused => add_unused(input, chance),
        Rings => {
            if chance.one_in(2) || !pinch(input, first_table) {
                add_tetrahedron(input, 3, chance);
            }
        }
        Connected => add_tetrahedron(input, 4, chance),
        Records => {
            let more = WIDTH * (most_records(count as usize) + 1 + chance.pick(&[0, 0, 1, 50]));
            input.log = input.log.iter().copied().cycle().take(more).collect();
        }
        Log => harm_record(&mut input.log, count, call == RECOVER, chance),
        SheetSize | SheetFirstLine | SheetLines | OtherCounts => input.text.push(harm),
        Entries | Letter | Naming | Alternation | Depth | Sum => {
            let place = 1 + chance.below(input.job.len());
            jobs::fault(&mut input.job, harm.number(), place, chance);
        }
        Missing | Neighbours => {
            let rows = rows_of(&input.table);
            let edge = match harm {
                Missing => Some(flips::missing(&rows, count, chance)),
                _ => flips::of_neighbours(&rows, chance),
            };
            // In front of the list, so that what is done to it last is what refuses it.
            drop(input.edges.splice(0..0, edge.into_iter().flatten()));
        }
        FlipLog => flips::harm_record(&mut input.flip_log, chance),
    }
}

fn coordinate_outside(on_sheet: bool, chance: &mut Chance) -> i32 {
    match on_sheet {
        true => chance.pick(&[FARTHEST + 1, -FARTHEST - 1, 1 << 16, sheet::GREATEST, -sheet::GREATEST]),
        false => {
            chance.pick(&[FARTHEST + 1, -FARTHEST - 1, 1 << 16, (1 << 16) + FARTHEST, i32::MAX, i32::MIN, i32::MIN + 1])
        }
    }
}

pub fn number_outside(count: u32, on_sheet: bool, chance: &mut Chance) -> u32 {
    match on_sheet {
        true => chance.pick(&[count, count + 1, 256 + count, 1 << 16, sheet::GREATEST as u32]),
        false => chance.pick(&[count, count + 1, 1 << 16, 1 << 31, u32::MAX, u32::MAX - 1]),
    }
}

/// A corner or a kept or removed number past the count.
fn harm_shift(input: &mut Input, count: u32, chance: &mut Chance) {
    let outside = number_outside(count, false, chance);
    match chance.below(3) {
        at if at < 2 && input.log.len() >= WIDTH => {
            let record = chance.below(input.log.len() / WIDTH);
            input.log[WIDTH * record + at] = outside;
        }
        _ => input.corner = outside,
    }
}

fn harm_edge_twice(input: &mut Input, chance: &mut Chance) {
    match chance.below(3) {
        0 => input.table.swap(4, 5),
        1 => input.table.extend_from_within(3..6),
        _ => input.table.extend_from_within(..),
    }
}

/// A corner that no row uses, anywhere among the others.
fn add_unused(input: &mut Input, chance: &mut Chance) {
    let count = input.coordinates.len() / 3;
    let new = chance.below(count + 1);
    for n in input.table.iter_mut().filter(|n| (new..count).contains(&(**n as usize))) {
        *n += 1;
    }
    input.coordinates.splice(3 * new..3 * new, [1, 2, 3]);
}

/// Makes one corner of two of the first row's piece that have no neighbour in common: every edge stays single.
/// For a first table the highest number then takes the free one's place, so that no corner is left unused.
fn pinch(input: &mut Input, first_table: bool) -> bool {
    let edges = Edges::of(&rows_of(&input.table));
    let neighbours = |a: u32| -> BTreeSet<u32> { edges.round(a).iter().map(|e| e[1]).collect() };
    let piece = edges.reached_from(input.table[0]);
    let apart = |a: u32, b: u32| !neighbours(a).contains(&b) && neighbours(a).is_disjoint(&neighbours(b));
    let pairs = piece.iter().flat_map(|&a| piece.range(a + 1..).map(move |&b| (a, b)));
    let Some((kept, free)) = pairs.into_iter().find(|&(a, b)| apart(a, b)) else { return false };
    let last = input.coordinates.len() as u32 / 3 - 1;
    for n in &mut input.table {
        *n = if *n == free { kept } else { *n };
        *n = if *n == last && first_table { free } else { *n };
    }
    if first_table {
        input.coordinates.truncate(3 * last as usize);
    }
    true
}

/// A tetrahedron beside the skin, of fewer new corners where it shares some.
fn add_tetrahedron(input: &mut Input, new: u32, chance: &mut Chance) {
    let count = input.coordinates.len() as u32 / 3;
    let shared = chance.pick(&input.table);
    for n in tetrahedron().concat() {
        input.table.push(if n < new { count + n } else { shared });
    }
    for n in 0..new as i32 {
        input.coordinates.extend([n, -n, 7]);
    }
}

/// A length or count outside its limits, by one of the ways the call has.
fn harm_counts(input: &mut Input, call: usize, chance: &mut Chance) {
    let lists = matches!(call, THIN | THIN_PLAIN | VOLUME | EXACT_SUM | CHANGE | SHIFT | RECOVER);
    let logs = matches!(call, GROW_BACK | REPLAY | SHIFT | WRITE_LOG_SHEET);
    let told = matches!(call, GROW_BACK | WRITE_LOG_SHEET);
    let tables = matches!(call, THIN | THIN_PLAIN | REPLAY | VOLUME | EXACT_SUM | CHANGE | RECOVER | FLIP | UNDO);
    loop {
        match chance.below(11) {
            0 if tables => drop(input.table.split_off(input.table.len() - 1 - chance.below(2))),
            1 if tables => input.table.extend(vec![0; 1 + chance.below(2)]),
            2 if tables => input.table = input.table.iter().copied().cycle().take(3 * (MOST_ROWS + 1)).collect(),
            3 if lists => drop(input.coordinates.split_off(input.coordinates.len() - 1 - chance.below(2))),
            4 if lists => input.coordinates.resize(3 * (MOST_CORNERS + 1), 0),
            5 if lists => input.coordinates.push(0),
            6 if logs && chance.one_in(2) => input.log.extend(vec![0; 1 + chance.below(WIDTH - 1)]),
            6 if call == GROW_BACK => {
                input.log.resize(WIDTH * (MOST_ROWS.saturating_sub(input.table.len() / 3) / 2 + 1), 0)
            }
            7 if told => input.told = Some(hostile_count(input.table.len() as u64 / 3, chance)),
            7 if call == REPLAY => input.log.resize(WIDTH * (input.table.len() / 6 - 1), 0),
            8 if !lists => input.count = Some(hostile_count(4, chance)),
            9 if call == WRITE_LOG_SHEET => {
                let at = chance.below(input.log.len());
                input.log[at] = chance.pick(&[sheet::GREATEST as u32 + 1, 1 << 24, 1 << 31, u32::MAX]);
            }
            10 if call == FLIP => input.edges.push(chance.pick(&input.table)),
            10 if call == UNDO => input.flip_log.extend(vec![0; 1 + chance.below(flip::WIDTH - 1)]),
            _ => continue,
        }
        return;
    }
}

/// A count outside every limit; some come back inside when cut to 8 or 32 bits, or make three times it small.
fn hostile_count(honest: u64, chance: &mut Chance) -> u64 {
    let (most, third) = (MOST_ROWS as u64, u64::MAX / 3 + 1);
    let cut = [4 * most + honest, (1 << 32) + honest];
    chance.pick(&[0, 1, 3, most + 1, cut[0], cut[1], 1 << 62, 1 << 63, third + honest, u64::MAX])
}

/// Spoils the kept or removed number of a record so that it can't be accepted; on a sheet it stays a number.
fn harm_record(log: &mut [u32], count: u32, on_sheet: bool, chance: &mut Chance) {
    let at = WIDTH * chance.below(log.len() / WIDTH);
    match chance.below(4) {
        0 => log.swap(at, at + 1),
        1 => log[at] = log[at + 1],
        2 => log[at + 1] = log[at],
        _ => log[at + 1] = number_outside(count, on_sheet, chance),
    }
}

/// Spoils one number of a log; some spoiled logs are still honest.
pub fn harm_log(log: &mut [u32], count: u32, chance: &mut Chance) {
    if log.is_empty() {
        return;
    }
    let at = chance.below(log.len());
    let old = log[at];
    let other = chance.pick(log);
    log[at] = match chance.below(8) {
        0 => old.wrapping_add(1),
        1 => old.wrapping_sub(1),
        2 => count,
        3 => u32::MAX - chance.below(2) as u32,
        4 => 0,
        5 => old.wrapping_add(1 << chance.pick(&[8, 16, 31])),
        6 => other,
        _ => chance.below(count as usize) as u32,
    };
}

/// The greatest corner count, rows and bytes that a kind of sheet may have.
struct Most {
    corners: usize,
    rows: usize,
    bytes: usize,
    /// Whether the last newline may go for a line in bad form: of a log sheet that was cut, only a tail would be left.
    last_newline: bool,
}

const OF_SHEETS: Most =
    Most { corners: sheet::MOST_CORNERS, rows: sheet::MOST_ROWS, bytes: sheet::MOST_BYTES, last_newline: true };
const OF_LOG_SHEETS: Most =
    Most { corners: MOST_CORNERS, rows: MOST_ROWS, bytes: log_sheet::MOST_BYTES, last_newline: true };
const OF_CUT_LOG_SHEETS: Most = Most { last_newline: false, ..OF_LOG_SHEETS };
/// A job has no corners and rows.
const OF_JOB_SHEETS: Most = Most { bytes: job::MOST_BYTES, ..OF_SHEETS };

/// Counts that are not these: beside them, the other way round, at the limits, past them, and some that come back when
/// cut to 8 or 16 bits.
pub fn other_counts(honest: [u64; 2], chance: &mut Chance) -> [u64; 2] {
    let [corners, rows] = honest;
    let (most_corners, most_rows) = (MOST_CORNERS as u64, MOST_ROWS as u64);
    loop {
        let other = chance.pick(&[
            [corners + 1, rows],
            [corners.saturating_sub(1), rows],
            [corners, rows + 1],
            [corners, rows.saturating_sub(2)],
            [corners + 1, rows + 2],
            [rows, corners],
            [corners + 256, rows],
            [corners, rows + (1 << 16)],
            [most_corners, most_rows],
            [most_corners + 1, rows],
            [corners, most_rows + 1],
            [3, rows],
            [0, 0],
            [sheet::GREATEST as u64, rows],
        ]);
        if other != honest {
            return other;
        }
    }
}

/// Harm to the text of a sheet.
fn harm_text(text: &mut Vec<u8>, most: &Most, harm: Harm, chance: &mut Chance) {
    let first = text.iter().position(|&b| b == b'\n').map_or(0, |n| n + 1);
    let name = text.iter().position(|&b| !b.is_ascii_alphabetic()).unwrap_or(0);
    match harm {
        SheetSize => text.resize(most.bytes + 1 + chance.below(3), b'\n'),
        // The counts stay in the line, so that both can be wrong at once.
        SheetFirstLine => match chance.below(5) {
            0 => text[name] = b' ',
            1 => text.insert(name + 1, b'0'),
            2 => text[..name].make_ascii_lowercase(),
            3 => text.insert(first - 1, b'\t'),
            _ => text.insert(first - 1, b'\r'),
        },
        Counts => {
            let counts = [(3, 8), (most.corners + 1, 8), (6, 3), (6, most.rows + 1), (0, 0)];
            let (corners, rows) = chance.pick(&counts);
            text.splice(name..first, format!("\t{corners}\t{rows}\n").bytes());
        }
        // It was written with them.
        OtherCounts => {}
        _ => {
            let end = if most.last_newline { text.len() } else { text.len() - 1 };
            let at = first + chance.below(end - first);
            // No capital: one in a job's letter is in form.
            text[at] = chance.pick(b" +xy\r,.\0");
        }
    }
}

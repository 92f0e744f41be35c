//! A log as it is mailed: the calls of its sheet, on every side.

use crate::work::{Counted, Uncounted, Work};
use crate::{logs, quick_logs, Call};
use apart::step::WIDTH;
use flaxglimmer as proved;
use flaxglimmer::{Record, Refusal};
use std::hint::black_box;

/// A log with the counts that it is written for, its sheet, and how much room is lent for either.
#[derive(Clone, Default)]
pub struct Mailed {
    pub corners: usize,
    pub rows: usize,
    pub log: Vec<u32>,
    pub text_room: usize,
    pub sheet: Vec<u8>,
    pub log_room: usize,
}

/// What stands in lent room before a call: no record has the number, no sheet the byte.
const NUMBER: u32 = 7_777_777;
const BYTE: u8 = b'.';

fn sheet_of(corners: usize, rows: usize, log: &[u32]) -> Vec<u8> {
    let mut text = format!("LOG\t{corners}\t{rows}\n");
    for record in log.chunks(WIDTH) {
        let fields: String = record.iter().map(|number| format!("\t{number}")).collect();
        text += &format!("K{fields}\n");
    }
    text.into_bytes()
}

pub const ONE_BY_ONE: &str = "records one by one";

/// Opens a sheet and hands on its records one by one, up to the first that is none.
fn plain_records(bytes: &[u8], mut each: impl FnMut(Record), work: &mut impl Work) -> Result<(), Refusal> {
    let mut place = logs::open(bytes, work)?.place;
    while let Some((record, after)) = logs::next(bytes, place, work)? {
        each(record);
        place = after;
    }
    Ok(())
}

fn proved_records(bytes: &[u8], mut each: impl FnMut(Record)) -> Result<(), Refusal> {
    proved::records(bytes)?.try_for_each(|record| record.map(&mut each))
}

fn seen(record: Record) {
    black_box(record);
}

impl Mailed {
    pub fn of(corners: usize, rows: usize, log: &[u32]) -> Mailed {
        let sheet = sheet_of(corners, rows, log);
        Mailed { corners, rows, log: log.to_vec(), text_room: logs::MOST_BYTES, sheet, log_room: log.len() }
    }

    pub fn calls(&self) -> [Call<'_>; 3] {
        [self.write(), self.read(), self.one_by_one()]
    }

    fn write(&self) -> Call<'_> {
        let room = || vec![BYTE; self.text_room];
        let (mut text, mut work, mut quick_work) = (room(), Counted::default(), Counted::default());
        let answer = logs::write(self.corners, self.rows, &self.log, &mut text, &mut work);
        let (mut here, mut there, mut elsewhere) = (room(), room(), room());
        assert_eq!(proved::write_log_sheet(self.corners, self.rows, &self.log, &mut here), answer, "write log sheet");
        assert!(here == text, "write log sheet: the two sides differ");
        let quick = quick_logs::write(self.corners, self.rows, &self.log, &mut elsewhere, &mut quick_work);
        assert!((quick, &elsewhere) == (answer, &text), "write log sheet: quick Rust differs");
        if let Ok(bytes) = answer {
            assert!(text[..bytes] == sheet_of(self.corners, self.rows, &self.log), "write log sheet: another sheet");
        }
        let proved = move || {
            black_box(proved::write_log_sheet(self.corners, self.rows, black_box(&self.log), &mut here)).ok();
        };
        let plain = move || {
            let log = black_box(&self.log);
            black_box(logs::write(self.corners, self.rows, log, &mut there, &mut Uncounted)).ok();
        };
        let quick = move || {
            let log = black_box(&self.log);
            black_box(quick_logs::write(self.corners, self.rows, log, &mut elsewhere, &mut Uncounted)).ok();
        };
        Call::new("write log sheet", answer.err(), work, proved, plain).with_quick(quick_work, quick)
    }

    fn read(&self) -> Call<'_> {
        let room = || vec![NUMBER; self.log_room];
        let (mut log, mut work, mut quick_work) = (room(), Counted::default(), Counted::default());
        let answer = logs::read(&self.sheet, &mut log, &mut work);
        let (mut here, mut there, mut elsewhere) = (room(), room(), room());
        assert_eq!(proved::read_log_sheet(&self.sheet, &mut here), answer, "read log sheet");
        assert!(here == log, "read log sheet: the two sides differ");
        let quick = quick_logs::read(&self.sheet, &mut elsewhere, &mut quick_work);
        assert!((quick, &elsewhere) == (answer, &log), "read log sheet: quick Rust differs");
        let proved = move || {
            black_box(proved::read_log_sheet(black_box(&self.sheet), &mut here)).ok();
        };
        let plain = move || {
            black_box(logs::read(black_box(&self.sheet), &mut there, &mut Uncounted)).ok();
        };
        let quick = move || {
            black_box(quick_logs::read(black_box(&self.sheet), &mut elsewhere, &mut Uncounted)).ok();
        };
        Call::new("read log sheet", answer.err(), work, proved, plain).with_quick(quick_work, quick)
    }

    fn one_by_one(&self) -> Call<'_> {
        let (mut records, mut theirs, mut work) = (vec![], vec![], Counted::default());
        let answer = plain_records(&self.sheet, |record| records.push(record), &mut work);
        assert_eq!(proved_records(&self.sheet, |record| theirs.push(record)), answer, "{ONE_BY_ONE}");
        assert!(theirs == records, "{ONE_BY_ONE}: the two sides differ");
        let proved = || {
            black_box(proved_records(black_box(&self.sheet), seen)).ok();
        };
        let plain = || {
            black_box(plain_records(black_box(&self.sheet), seen, &mut Uncounted)).ok();
        };
        Call::new(ONE_BY_ONE, answer.err(), work, proved, plain)
    }
}

// The log of document 01's octahedron as a log sheet: written, read whole, and read record by record. Expected: 01's log in 02's form.
use flaxglimmer::*;

const CORNERS: [i32; 18] = [0, 0, 100, 100, 0, 0, 0, 100, 0, -100, 0, 0, 0, -100, 0, 0, 0, -100];
const TABLE: [u32; 24] = [0, 1, 2, 0, 2, 3, 0, 3, 4, 0, 4, 1, 5, 2, 1, 5, 3, 2, 5, 4, 3, 5, 1, 4];
const FIRST: Record = [0, 1, 0, 0, 1, 2, 3, 0, 4, 1];
const SECOND: Record = [0, 2, 0, 0, 2, 3, 2, 5, 2, 0];
const LOG: [u32; 20] = [0, 1, 0, 0, 1, 2, 3, 0, 4, 1, 0, 2, 0, 0, 2, 3, 2, 5, 2, 0];

// Its first line has 8 bytes, each of its two others 22.
const SHEET: &[u8] = b"LOG\t6\t8\nK\t0\t1\t0\t0\t1\t2\t3\t0\t4\t1\nK\t0\t2\t0\t0\t2\t3\t2\t5\t2\t0\n";
const FIRST_AT: usize = 8;
const SECOND_AT: usize = 30;
const END: usize = 52;
const COUNTS: LogCounts = LogCounts { corners: 6, rows: 8, records: 2 };

/// A sheet with another first line, or other lines of records, than the octahedron's.
fn sheet(first: &str, lines: &str) -> Vec<u8> {
    format!("{first}\n{lines}").replace(' ', "\t").into_bytes()
}

const TWO_LINES: &str = "K 0 1 0 0 1 2 3 0 4 1\nK 0 2 0 0 2 3 2 5 2 0\n";

/// Lines that are no record's.
const BAD_LINES: [&str; 12] = [
    "K 0 1 0 0 1 2 3 0 4\n",
    "K 0 1 0 0 1 2 3 0 4 1 1\n",
    "K 0 1 0 0 1 2 3 0 4 01\n",
    "K 0 1 0 0 1 2 3 0 4 -1\n",
    "K 0 1 0 0 1 2 3 0 4 1000000\n",
    "K 0 1 0 0 1 2 3 0 4 \n",
    "K  0 1 0 0 1 2 3 0 4 1\n",
    "K 0 1 0 0 1 2 3 0 4 1\r\n",
    "R 0 1 0 0 1 2 3 0 4 1\n",
    "k 0 1 0 0 1 2 3 0 4 1\n",
    "K 0 1 0 0 1 2 3 0 4 1",
    "\n",
];

#[test]
fn the_octahedrons_log_is_written() {
    let mut text = [b'.'; END + 1];
    assert_eq!(write_log_sheet(6, 8, &LOG, &mut text), Ok(END));
    assert_eq!((&text[..END], text[END]), (SHEET, b'.'));
    assert_eq!(write_log_sheet(6, 8, &[], &mut text), Ok(FIRST_AT));
    assert_eq!(text[..FIRST_AT], SHEET[..FIRST_AT]);
}

#[test]
fn the_octahedrons_log_is_read_back() {
    for read in [read_log_sheet, each_record] {
        let mut log = [7; 21];
        assert_eq!(read(SHEET, &mut log), Ok(COUNTS));
        assert_eq!((&log[..20], log[20]), (&LOG[..], 7));
        assert_eq!(read(&SHEET[..FIRST_AT], &mut []), Ok(LogCounts { records: 0, ..COUNTS }));
    }
}

#[test]
fn a_mailed_log_grows_back() {
    let (mut table, mut log, mut text) = (TABLE, [0; 20], [0; MOST_LOG_BYTES]);
    assert_eq!(thin(&mut table, &CORNERS, None, &mut log), Ok(2));
    let bytes = write_log_sheet(6, 8, &log, &mut text).expect("so many bytes suffice");
    assert_eq!(&text[..bytes], SHEET);
    let mut read = [7; 20];
    assert_eq!(read_log_sheet(&text[..bytes], &mut read), Ok(COUNTS));
    assert_eq!(grow_back(&mut table, 4, 6, &read), Ok(2));
    assert_eq!(table, TABLE);
}

#[test]
fn numbers_of_six_digits_are_written_and_read() {
    let log = [999_999, 0, 10, 100, 1_000, 10_000, 100_000, 9, 99, 999];
    let (mut text, mut read) = ([0; 100], [7; 10]);
    let expected = sheet("LOG 514 1024", "K 999999 0 10 100 1000 10000 100000 9 99 999\n");
    assert_eq!(write_log_sheet(514, 1_024, &log, &mut text), Ok(expected.len()));
    assert_eq!(text[..expected.len()], expected);
    assert_eq!(read_log_sheet(&expected, &mut read), Ok(LogCounts { corners: 514, rows: 1_024, records: 1 }));
    assert_eq!(read, log);
}

#[test]
fn writing_refuses_by_2_and_then_by_3_and_writes_nothing() {
    let mut text = [b'.'; 100];
    let mut large = LOG;
    for number in [1_000_000, u32::MAX] {
        large[19] = number;
        assert_eq!(write_log_sheet(6, 8, &large, &mut text), Err(Refusal::CountsOutside));
    }
    // counts, whole records, records for the corners: in a text that has room, and in none
    let outside: [(usize, usize, &[u32]); 9] = [
        (LEAST_CORNERS - 1, 8, &[]),
        (MOST_CORNERS + 1, 8, &LOG),
        (usize::MAX, 8, &LOG),
        (6, LEAST_ROWS - 1, &LOG),
        (6, MOST_ROWS + 1, &LOG),
        (6, usize::MAX, &LOG),
        (6, 8, &LOG[..19]),
        (6, 8, &LOG[..1]),
        (5, 8, &LOG),
    ];
    for (corners, rows, log) in outside {
        assert_eq!(write_log_sheet(corners, rows, log, &mut text), Err(Refusal::CountsOutside), "{corners} {rows} {log:?}");
        assert_eq!(write_log_sheet(corners, rows, log, &mut []), Err(Refusal::CountsOutside), "{corners} {rows} {log:?}");
    }
    for room in [0, 1, FIRST_AT, END - 1] {
        assert_eq!(write_log_sheet(6, 8, &LOG, &mut text[..room]), Err(Refusal::RoomShort));
    }
    assert_eq!(text, [b'.'; 100]);
    assert_eq!(write_log_sheet(6, 8, &LOG, &mut text[..END]), Ok(END));
}

#[test]
fn rows_are_not_held_against_records() {
    let (log, mut text) = ([0; WIDTH * (MOST_CORNERS - LEAST_CORNERS)], [0; MOST_LOG_BYTES]);
    // 10 bytes of the first line, `LOG 514 4`, and 22 for each of 510 records
    assert_eq!(write_log_sheet(MOST_CORNERS, LEAST_ROWS, &log, &mut text), Ok(10 + 510 * 22));
}

#[test]
fn reading_refuses_by_12_then_2_then_3_and_writes_nothing() {
    let mut log = [7; 20];
    for bad in BAD_LINES {
        // the counts are outside and the room is short, too
        let bytes = sheet("LOG 3 8", &format!("{TWO_LINES}{bad}"));
        assert_eq!(read_log_sheet(&bytes, &mut log[..9]), Err(Refusal::SheetForm), "{bad:?}");
    }
    for counts in ["LOG 3 8", "LOG 515 8", "LOG 6 3", "LOG 6 1025", "LOG 5 8", "LOG 999999 0"] {
        assert_eq!(read_log_sheet(&sheet(counts, TWO_LINES), &mut log[..19]), Err(Refusal::CountsOutside), "{counts}");
    }
    for room in [0, 10, 19] {
        assert_eq!(read_log_sheet(SHEET, &mut log[..room]), Err(Refusal::RoomShort));
    }
    assert_eq!(log, [7; 20]);
    assert_eq!(read_log_sheet(SHEET, &mut log), Ok(COUNTS));
}

#[test]
fn the_reader_asks_the_counts_before_the_lines_and_not_the_records() {
    let mut log = [7; 20];
    for bad in BAD_LINES {
        let lines = format!("{TWO_LINES}{bad}");
        assert_eq!(each_record(&sheet("LOG 3 8", &lines), &mut log[..9]), Err(Refusal::CountsOutside), "{bad:?}");
        assert_eq!(each_record(&sheet("LOG 6 8", &lines), &mut log[..9]), Err(Refusal::SheetForm), "{bad:?}");
    }
    let crowded = sheet("LOG 5 8", TWO_LINES);
    assert_eq!(each_record(&crowded, &mut log[..19]), Err(Refusal::RoomShort));
    assert_eq!(log, [7; 20]);
    assert_eq!(each_record(&crowded, &mut log), Ok(LogCounts { corners: 5, ..COUNTS }));
    assert_eq!(log, LOG);
}

// 8 bytes, 2,977 lines of 22, and a last one of 22 and as many as its numbers have digits more than one: 65,502 and those.
#[test]
fn a_sheet_has_at_most_its_bytes() {
    let long = |last: &str| sheet("LOG 6 8", &format!("{}K {last}\n", "K 0 1 0 0 1 2 3 0 4 1\n".repeat(2_977)));
    let (whole, over) = (long("100000 200000 300 0 1 2 3 0 4 1"), long("100000 200000 3000 0 1 2 3 0 4 1"));
    assert_eq!((whole.len(), over.len()), (MOST_LOG_BYTES, MOST_LOG_BYTES + 1));
    let mut log = vec![7; 2_978 * WIDTH];
    assert_eq!(read_log_sheet(&whole, &mut log), Err(Refusal::CountsOutside));
    assert_eq!(each_record(&whole, &mut log[1..]), Err(Refusal::RoomShort));
    for read in [read_log_sheet, each_record] {
        assert_eq!(read(&over, &mut log), Err(Refusal::SheetForm));
    }
    assert_eq!(log, vec![7; 2_978 * WIDTH]);
    assert_eq!(each_record(&whole, &mut log), Ok(LogCounts { records: 2_978, ..COUNTS }));
    assert_eq!((&log[..10], &log[29_770..]), (&FIRST[..], &[100_000, 200_000, 300, 0, 1, 2, 3, 0, 4, 1][..]));
    assert_eq!(open_log_sheet(&whole), Ok(Opened { corners: 6, rows: 8, place: FIRST_AT }));
    assert_eq!(open_log_sheet(&over), Err(Refusal::SheetForm));
}

#[test]
fn opening_asks_the_first_line_and_its_counts_alone() {
    let opened = |first: &str| open_log_sheet(&sheet(first, "anything"));
    assert_eq!(opened("LOG 6 8"), Ok(Opened { corners: 6, rows: 8, place: FIRST_AT }));
    assert_eq!(opened("LOG 514 1024"), Ok(Opened { corners: 514, rows: 1_024, place: 13 }));
    for bad in ["", "LOG", "LOG 6", "LOG 6 8 2", "LOG 06 8", "LOG -6 8", "LOG 6 1000000", "LOG 6 8\r", "SKIN 6 8", " LOG 6 8"] {
        assert_eq!(opened(bad), Err(Refusal::SheetForm), "{bad:?}");
    }
    assert_eq!(open_log_sheet(b"LOG\t6\t8"), Err(Refusal::SheetForm));
    assert_eq!(open_log_sheet(b""), Err(Refusal::SheetForm));
    for outside in ["LOG 3 8", "LOG 515 8", "LOG 6 3", "LOG 6 1025", "LOG 0 0", "LOG 999999 999999"] {
        assert_eq!(opened(outside), Err(Refusal::CountsOutside), "{outside:?}");
    }
}

#[test]
fn a_record_stands_where_its_line_begins_and_nowhere_else() {
    for place in 0..END {
        let expected = match place {
            FIRST_AT => Ok(Some((FIRST, SECOND_AT))),
            SECOND_AT => Ok(Some((SECOND, END))),
            _ => Err(Refusal::SheetForm),
        };
        assert_eq!(next_record(SHEET, place), expected, "at {place}");
    }
    for place in [END, END + 1, 1 << 32, usize::MAX - 1, usize::MAX] {
        assert_eq!(next_record(SHEET, place), Ok(None), "at {place}");
        assert_eq!(next_record(&[], place), Ok(None), "at {place} of nothing");
    }
    assert_eq!(next_record(&[], 0), Ok(None));
    // of any bytes: no first line is needed, and what follows the line is not looked at
    assert_eq!(next_record(&SHEET[FIRST_AT..SECOND_AT + 1], 0), Ok(Some((FIRST, 22))));
    for bad in BAD_LINES {
        assert_eq!(next_record(&sheet("LOG 6 8", bad), FIRST_AT), Err(Refusal::SheetForm), "{bad:?}");
    }
}

#[test]
fn records_come_one_at_a_time() {
    let mut one = records(SHEET).expect("a log sheet is opened");
    assert_eq!((one.counts(), one.place()), (Counts { corners: 6, rows: 8 }, FIRST_AT));
    assert_eq!((one.next(), one.place()), (Some(Ok(FIRST)), SECOND_AT));
    let mut other = one.clone();
    assert_eq!((one.next(), one.place()), (Some(Ok(SECOND)), END));
    assert_eq!((one.next(), one.next(), one.place()), (None, None, END));
    assert_eq!((other.next(), other.next()), (Some(Ok(SECOND)), None));
    assert_eq!(records(&SHEET[..FIRST_AT]).expect("a log sheet is opened").count(), 0);
    assert_eq!(records(b"LOG").err(), Some(Refusal::SheetForm));
    assert_eq!(records(&sheet("LOG 3 8", TWO_LINES)).err(), Some(Refusal::CountsOutside));
    let crowded = sheet("LOG 5 8", TWO_LINES);
    assert!(records(&crowded).expect("a log sheet is opened").eq([Ok(FIRST), Ok(SECOND)]));
}

#[test]
fn a_bad_line_is_told_at_its_record_and_not_before() {
    for bad in BAD_LINES {
        let bytes = sheet("LOG 6 8", &format!("K 0 1 0 0 1 2 3 0 4 1\n{bad}K 0 2 0 0 2 3 2 5 2 0\n"));
        let mut asked = records(&bytes).expect("a log sheet is opened");
        assert_eq!(asked.next(), Some(Ok(FIRST)), "{bad:?}");
        assert_eq!(asked.next(), Some(Err(Refusal::SheetForm)), "{bad:?}");
        assert_eq!((asked.next(), asked.next(), asked.place()), (None, None, SECOND_AT), "{bad:?}");
    }
}

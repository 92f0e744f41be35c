// Thinning taken up from a cut log sheet: document 01's octahedron and its trial ring, cut after each byte. Expected: 01's own log, of the trial
// ring the unbroken run's, and 02's refusals.
use flaxglimmer::*;

const CORNERS: [i32; 18] = [0, 0, 100, 100, 0, 0, 0, 100, 0, -100, 0, 0, 0, -100, 0, 0, 0, -100];
const TABLE: [u32; 24] = [0, 1, 2, 0, 2, 3, 0, 3, 4, 0, 4, 1, 5, 2, 1, 5, 3, 2, 5, 4, 3, 5, 1, 4];
const LOG: [u32; 20] = [0, 1, 0, 0, 1, 2, 3, 0, 4, 1, 0, 2, 0, 0, 2, 3, 2, 5, 2, 0];
// after the first record, and after both
const MIDDLE: [u32; 24] = [0, 2, 3, 0, 3, 4, 5, 2, 0, 5, 3, 2, 5, 4, 3, 5, 0, 4, 0, 0, 0, 0, 0, 0];
const LAST: [u32; 24] = [0, 3, 4, 5, 3, 0, 5, 4, 3, 5, 0, 4, 0, 0, 0, 0, 0, 0, 0, 0, 0, 0, 0, 0];

// Its first line has 8 bytes, each of its two others 22.
const SHEET: &[u8] = b"LOG\t6\t8\nK\t0\t1\t0\t0\t1\t2\t3\t0\t4\t1\nK\t0\t2\t0\t0\t2\t3\t2\t5\t2\t0\n";
const FIRST_AT: usize = 8;
const SECOND_AT: usize = 30;
const END: usize = 52;

const NOTHING_ADDED: Option<Length> = Some(Length::Centimetres(0.0));

/// What recovery answers, and the table and the log that it leaves of the octahedron, with room for a number past its records.
fn recovered(limit: Option<Length>, bytes: &[u8]) -> (Result<Recovered, Unfinished>, [u32; 24], [u32; 21]) {
    let (mut table, mut log) = (TABLE, [7; 21]);
    let answer = recover(&mut table, &CORNERS, limit, &mut log, bytes);
    (answer, table, log)
}

/// The log's first records in front of sevens.
fn first(records: usize) -> [u32; 21] {
    let mut log = [7; 21];
    log[..WIDTH * records].copy_from_slice(&LOG[..WIDTH * records]);
    log
}

fn refused(refusal: Refusal) -> (Result<Recovered, Unfinished>, [u32; 24], [u32; 21]) {
    (Err(Unfinished::Refused(refusal)), TABLE, [7; 21])
}

/// A sheet as it is typed here, with blanks for tabs.
fn sheet(text: &str) -> Vec<u8> {
    text.replace(' ', "\t").into_bytes()
}

const LINE_ONE: &str = "K 0 1 0 0 1 2 3 0 4 1\n";
const LINE_TWO: &str = "K 0 2 0 0 2 3 2 5 2 0\n";

#[test]
fn each_cut_ends_as_the_unbroken_run() {
    for cut in 0..=END {
        let kept = [SECOND_AT, END].into_iter().filter(|&end| cut >= end).count();
        let expected = if cut < FIRST_AT { refused(Refusal::SheetForm) } else { (Ok(Recovered { kept, records: 2 }), LAST, first(2)) };
        assert_eq!(recovered(None, &SHEET[..cut]), expected, "cut at {cut}");
    }
}

#[test]
fn the_stage_handed_over_is_the_one_after_the_whole_lines() {
    for (cut, kept, stage) in [(FIRST_AT, 0, TABLE), (SECOND_AT - 1, 0, TABLE), (SECOND_AT, 1, MIDDLE), (END - 1, 1, MIDDLE), (END, 2, LAST)] {
        let expected = (Ok(Recovered { kept, records: kept }), stage, first(kept));
        assert_eq!(recovered(NOTHING_ADDED, &SHEET[..cut]), expected, "cut at {cut}");
    }
}

#[test]
fn the_tail_may_be_anything() {
    for tail in [&b"K\t0\t2\t0\t0\t2\t3\t2\t5\t2\t9"[..], b"K\t0\t2\r", b"LOG\t7\t9", b"Sent from site", b"\0\0\0\0", b"\xff\xfe", b"\r", b" "] {
        let bytes = [&SHEET[..SECOND_AT], tail].concat();
        assert_eq!(recovered(None, &bytes), (Ok(Recovered { kept: 1, records: 2 }), LAST, first(2)), "{tail:?}");
    }
}

#[test]
fn the_trial_ring_cut_after_each_byte() {
    let first: Vec<u32> = (0..384).map(|at| trial_number(at).expect("a number of the ring")).collect();
    let corners: Vec<i32> = (0..64).flat_map(|i| [i, i * i % 97, i * i * i % 89]).collect();
    for limit in [None, Some(Length::Centimetres(40.0))] {
        let (mut last, mut log, mut text) = (first.clone(), [7; 600], [0; MOST_LOG_BYTES]);
        let records = thin(&mut last, &corners, limit, &mut log).expect("the ring is a skin");
        assert!(records > 9);
        let bytes = write_log_sheet(64, 128, &log[..WIDTH * records], &mut text).expect("so many bytes suffice");
        let mut whole = 0;
        for cut in 1..=bytes {
            whole += usize::from(text[cut - 1] == b'\n');
            if whole == 0 {
                continue;
            }
            let (mut table, mut again) = (first.clone(), [7; 600]);
            assert_eq!(recover(&mut table, &corners, limit, &mut again, &text[..cut]), Ok(Recovered { kept: whole - 1, records }), "cut at {cut}");
            assert!(table == last && again == log, "cut at {cut}");
        }
        assert_eq!(whole, 1 + records);
    }
}

// 01's octahedron over the edge of 2 and 5, which is not the least, and then over the least that is left, of 0 and 1.
#[test]
fn records_of_another_order_are_kept_and_others_added() {
    let bytes = sheet("LOG 6 8\nK 2 5 4 5 2 1 5 5 3 2\nK 0");
    let (answer, table, log) = recovered(None, &bytes);
    assert_eq!(answer, Ok(Recovered { kept: 1, records: 2 }));
    assert_eq!(table[..12], [0, 2, 3, 0, 3, 4, 2, 4, 3, 2, 0, 4]);
    assert_eq!((&table[12..], log), (&[0; 12][..], [2, 5, 4, 5, 2, 1, 5, 5, 3, 2, 0, 1, 0, 0, 1, 2, 3, 0, 4, 1, 7]));
    // its edges have 20,000 square centimetres, and 141 squared is 19,881
    let (answer, table, log) = recovered(Some(Length::Centimetres(141.0)), &bytes);
    assert_eq!(answer, Ok(Recovered { kept: 1, records: 1 }));
    assert_eq!(table[..18], [0, 1, 2, 0, 2, 3, 0, 3, 4, 0, 4, 1, 2, 4, 3, 2, 1, 4]);
    assert_eq!((&log[..10], &log[10..]), (&[2, 5, 4, 5, 2, 1, 5, 5, 3, 2][..], &[7; 11][..]));
}

#[test]
fn a_record_that_does_not_replay_leaves_the_stage_and_the_records_before_it() {
    for spoilt in ["K 0 2 0 0 2 3 2 5 2 1\n", LINE_ONE, "K 999999 2 0 0 2 3 2 5 2 0\n"] {
        let bytes = sheet(&format!("LOG 6 8\n{LINE_ONE}{spoilt}K 0 3"));
        assert_eq!(recovered(None, &bytes), (Err(Unfinished::Stopped(1)), MIDDLE, first(1)), "{spoilt:?}");
    }
    let bytes = sheet(&format!("LOG 6 8\n{LINE_TWO}{LINE_ONE}"));
    assert_eq!(recovered(None, &bytes), (Err(Unfinished::Stopped(0)), TABLE, first(0)));
}

#[test]
fn whole_lines_in_bad_form_are_12_before_counts_and_records() {
    for bad in ["K 0 1 0 0 1 2 3 0 4\n", "K 0 1 0 0 1 2 3 0 4 01\n", "K 0 1 0 0 1 2 3 0 4 1\r\n", "R 0 1 2\n", "\n", "K 0 1 0 0 1 2 3 0 4 1000000\n"] {
        for counts in ["LOG 6 8", "LOG 7 9", "LOG 3 8"] {
            for tail in ["", "K 0 2"] {
                let bytes = sheet(&format!("{counts}\n{LINE_TWO}{bad}{LINE_TWO}{LINE_TWO}{tail}"));
                assert_eq!(recovered(None, &bytes), refused(Refusal::SheetForm), "{counts} {bad:?} {tail:?}");
            }
        }
    }
    for bad in ["", "LOG", "LOG 6 8", "SKIN 6 8\n", "LOG 06 8\n", "LOG 6 8\r\n", "\n", "LOG 6\n"] {
        assert_eq!(recovered(None, &sheet(bad)), refused(Refusal::SheetForm), "{bad:?}");
    }
}

#[test]
fn counts_that_are_not_the_skins_and_too_many_records_are_2_before_13() {
    for counts in ["LOG 7 8", "LOG 6 10", "LOG 5 6", "LOG 8 6", "LOG 3 8", "LOG 6 999999"] {
        for lines in ["", LINE_ONE, LINE_TWO] {
            assert_eq!(recovered(None, &sheet(&format!("{counts}\n{lines}K 0"))), refused(Refusal::CountsOutside), "{counts} {lines:?}");
        }
    }
    for lines in [[LINE_ONE, LINE_TWO, LINE_TWO], [LINE_TWO, LINE_TWO, LINE_TWO]] {
        assert_eq!(recovered(None, &sheet(&format!("LOG 6 8\n{}", lines.concat()))), refused(Refusal::CountsOutside));
    }
}

#[test]
fn the_refusals_of_thinning_come_first() {
    for bytes in [&b"LOG"[..], SHEET, b"LOG\t7\t8\n"] {
        assert_eq!(recovered(Some(Length::Metres(f64::NAN)), bytes), refused(Refusal::LimitUnusable));
        let (mut table, mut log) = (TABLE, [7; 20]);
        let mut asked = |table: &mut [u32], corners: &[i32], room: usize| recover(table, corners, None, &mut log[..room], bytes).unwrap_err();
        assert_eq!(asked(&mut table[..23], &CORNERS, 20), Unfinished::Refused(Refusal::CountsOutside));
        assert_eq!(asked(&mut table, &CORNERS, 19), Unfinished::Refused(Refusal::RoomShort));
        assert_eq!(asked(&mut table, &[50_001; 18], 20), Unfinished::Refused(Refusal::CoordinateOutOfRange));
        assert_eq!(asked(&mut table[..21], &CORNERS, 20), Unfinished::Refused(Refusal::ReverseMissing));
        assert_eq!((table, log), (TABLE, [7; 20]));
    }
}

#[test]
fn a_sheet_has_at_most_its_bytes_with_its_tail() {
    let mut bytes = SHEET.to_vec();
    bytes.resize(MOST_LOG_BYTES, 0);
    assert_eq!(recovered(None, &bytes), (Ok(Recovered { kept: 2, records: 2 }), LAST, first(2)));
    bytes.push(0);
    assert_eq!(recovered(None, &bytes), refused(Refusal::SheetForm));
}

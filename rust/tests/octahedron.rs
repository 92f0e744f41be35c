// Document 01's octahedron through every public call. Expected: 01's own numbers.
use flaxglimmer::*;

const CORNERS: [i32; 18] = [0, 0, 100, 100, 0, 0, 0, 100, 0, -100, 0, 0, 0, -100, 0, 0, 0, -100];
const TABLE: [u32; 24] = [0, 1, 2, 0, 2, 3, 0, 3, 4, 0, 4, 1, 5, 2, 1, 5, 3, 2, 5, 4, 3, 5, 1, 4];
const LAST: [u32; 12] = [0, 3, 4, 5, 3, 0, 5, 4, 3, 5, 0, 4];
const LOG: [u32; 20] = [0, 1, 0, 0, 1, 2, 3, 0, 4, 1, 0, 2, 0, 0, 2, 3, 2, 5, 2, 0];
const SHEET: &[u8] = include_bytes!("../../sheets/octahedron.sheet");

fn thinned() -> ([u32; 24], [u32; 20]) {
    let (mut table, mut log) = (TABLE, [7; 20]);
    assert_eq!(thin(&mut table, &CORNERS, None, &mut log), Ok(2));
    (table, log)
}

#[test]
fn thins_to_four_rows_and_two_records() {
    let (table, log) = thinned();
    assert_eq!(table[..12], LAST);
    assert_eq!(table[12..], [0; 12]);
    assert_eq!(log, LOG);
}

#[test]
fn the_plain_engine_leaves_the_same() {
    let (mut table, mut log) = (TABLE, [7; 20]);
    assert_eq!(thin_plain(&mut table, &CORNERS, None, &mut log), Ok(2));
    assert_eq!((table, log), thinned());
    for (figure, records) in [(141.0, 0), (142.0, 2)] {
        let thinned_by = |call: fn(&mut [u32], &[i32], Option<Length>, &mut [u32]) -> Result<usize, Refusal>| {
            let (mut table, mut log) = (TABLE, [7; 20]);
            (call(&mut table, &CORNERS, Some(Length::Centimetres(figure)), &mut log), table, log)
        };
        assert_eq!(thinned_by(thin_plain), thinned_by(thin));
        assert_eq!(thinned_by(thin_plain).0, Ok(records));
    }
    assert_eq!(thin_plain(&mut table, &CORNERS, None, &mut log[..19]), Err(Refusal::RoomShort));
}

#[test]
fn grows_back_to_the_first_table() {
    let (mut room, log) = thinned();
    assert_eq!(grow_back(&mut room, 4, 6, &log), Ok(2));
    assert_eq!(room, TABLE);
}

#[test]
fn replays_to_what_thinning_left() {
    let (left, log) = thinned();
    let mut table = TABLE;
    assert_eq!(replay(&mut table, 6, &log), Ok(2));
    assert_eq!(table, left);
}

#[test]
fn stops_at_a_record_that_fails() {
    let (mut room, mut log) = thinned();
    log[0] = 5;
    assert_eq!(grow_back(&mut room, 4, 6, &log), Err(Unfinished::Stopped(1)));
    assert_eq!(grow_back(&mut [], 4, 6, &log), Err(Unfinished::Refused(Refusal::RoomShort)));
}

#[test]
fn measures() {
    assert_eq!(volume(&TABLE, &CORNERS), Ok(1));
    assert_eq!(volume(&LAST, &CORNERS), Ok(0));
    assert_eq!(change(&TABLE, &LAST, &CORNERS), Ok(-1));
}

#[test]
fn shifts_a_removed_corner_to_its_stand_in() {
    assert_eq!(shift(&CORNERS, &LOG, 1), Ok(Shift { stand_in: 0, count: 1, squared: 20000 }));
    assert_eq!(shift(&CORNERS, &LOG, 6), Err(Refusal::NumberNotBelow));
}

#[test]
fn reads_limits() {
    assert_eq!(read_limit(Length::Metres(0.3)), Ok(29));
    for (figure, survey, international) in [(4.75, Ok(144), Ok(144)), (6561.25, Ok(199_987), Ok(199_986)), (6561.7, Err(Refusal::LimitUnusable), Ok(200_000))] {
        assert_eq!(read_limit(Length::Feet(figure)), survey);
        assert_eq!(read_limit(Length::InternationalFeet(figure)), international);
    }
    assert_eq!(read_limit(Length::Centimetres(-0.0)), Ok(0));
    for unusable in [f64::NAN, f64::from_bits(0xfff0_0000_0000_0001), f64::INFINITY, -1.0, 2001.0] {
        assert_eq!(read_limit(Length::Metres(unusable)), Err(Refusal::LimitUnusable));
    }
}

#[test]
fn refuses_and_leaves_all_untouched() {
    let (mut table, mut log) = (TABLE, [7; 20]);
    assert_eq!(thin(&mut table, &CORNERS, Some(Length::Metres(f64::NAN)), &mut log), Err(Refusal::LimitUnusable));
    assert_eq!(thin(&mut table, &CORNERS, None, &mut log[..19]), Err(Refusal::RoomShort));
    assert_eq!(thin(&mut [], &[], None, &mut []), Err(Refusal::CountsOutside));
    assert_eq!((table, log), (TABLE, [7; 20]));
    assert_eq!(Refusal::RecordFails.number(), 13);
}

#[test]
fn hands_back_the_callers_own_memory() {
    let (long, short) = ([1, 2, 3], [1, 2]);
    assert!(std::ptr::eq(shorter_ring(&long, &short), &short[..]));
    assert!(std::ptr::eq(shorter_ring(&short, &[2, 1]), &short[..]));
    assert!(std::ptr::eq(catch_up(&short, &long), &long[2..]));
    assert!(std::ptr::eq(catch_up(&long, &short), &long[2..]));
    assert!(std::ptr::eq(catch_up(&long, &[1, 3]), &long[..0]));
}

#[test]
fn reads_a_sheet() {
    let (mut table, mut corners) = ([9; 25], [9; 18]);
    assert_eq!(read_sheet(SHEET, &mut table, &mut corners), Ok(Counts { corners: 6, rows: 8 }));
    assert_eq!((&table[..24], table[24], corners), (&TABLE[..], 9, CORNERS));
    assert_eq!(read_sheet(b"SKIN", &mut table, &mut corners), Err(Refusal::SheetForm));
}

#[test]
fn tells_the_trial_ring() {
    assert_eq!((0..6).map(trial_number).collect::<Vec<_>>(), [0, 8, 9, 0, 9, 1].map(Some));
    assert_eq!(trial_number(383), Some(56));
    assert_eq!(trial_number(384), None);
}

#[test]
fn answers_as_the_desk() {
    let mut text = [0; MOST_TEXT];
    let n = reply(SHEET, &mut text).expect("so many bytes suffice");
    let expected = "OK 4 2 1 0\nR 0 3 4\nR 5 3 0\nR 5 4 3\nR 5 0 4\nK 0 1 0 0 1 2 3 0 4 1\nK 0 2 0 0 2 3 2 5 2 0\n";
    assert_eq!(std::str::from_utf8(&text[..n]).unwrap().replace('\t', " "), expected);
    assert_eq!(reply(SHEET, &mut []), Err(Refusal::RoomShort));
}

#[test]
fn a_refusal_keeps_its_number() {
    for number in (1..=14).chain(20..=42) {
        assert_eq!(Refusal::of(number).number(), number);
    }
    assert_eq!(Refusal::of(1), Refusal::LimitUnusable);
    assert_eq!(Refusal::of(13), Refusal::RecordFails);
    assert_eq!(Refusal::of(1_000), Refusal::Other(1_000));
}

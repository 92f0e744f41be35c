// A refusal for every status: 01's thirteen and those of 02's jobs and flips by name, any other, as 02's later numbers, as a number and without a panic.
use flaxglimmer::*;

#[test]
fn a_name_for_each_of_01s_numbers_of_the_jobs_and_of_the_flips() {
    let numbers: Vec<u64> = Refusal::NAMED.into_iter().map(Refusal::number).collect();
    assert_eq!(numbers, (1..=13).chain(20..=25).chain(30..=32).collect::<Vec<_>>());
    for named in Refusal::NAMED {
        assert_eq!(Refusal::of(named.number()), named);
    }
    assert_eq!(Refusal::of(4), Refusal::CoordinateOutOfRange);
    assert_eq!(Refusal::of(13), Refusal::RecordFails);
    assert_eq!(Refusal::of(20), Refusal::JobCount);
    assert_eq!(Refusal::of(25), Refusal::JobSum);
    assert_eq!(Refusal::of(30), Refusal::EdgeMissing);
    assert_eq!(Refusal::of(32), Refusal::UndoFails);
}

#[test]
fn any_other_number_is_kept() {
    for number in (14..=19).chain(26..=29).chain(33..=99).chain([1 << 32, (1 << 32) + 4, u64::MAX, 0]) {
        assert_eq!(Refusal::of(number), Refusal::Other(number));
        assert_eq!(Refusal::of(number).number(), number);
    }
}

// What is at a limit passes its test and is refused by a later one; what is past it is refused by its own number.
#[test]
fn the_limits_are_the_calls_own() {
    let refused = |corners: usize, rows: usize| volume(&vec![0; 3 * rows], &vec![0; 3 * corners]).unwrap_err();
    for (corners, rows) in [(LEAST_CORNERS, LEAST_ROWS), (MOST_CORNERS, MOST_ROWS)] {
        assert_eq!(refused(corners, rows), Refusal::NumberTwice);
    }
    for (corners, rows) in [(LEAST_CORNERS - 1, LEAST_ROWS), (LEAST_CORNERS, LEAST_ROWS - 1), (MOST_CORNERS + 1, MOST_ROWS), (MOST_CORNERS, MOST_ROWS + 1)] {
        assert_eq!(refused(corners, rows), Refusal::CountsOutside);
    }
    let far = |coordinate: i32| volume(&[0; 3 * LEAST_ROWS], &[coordinate; 3 * LEAST_CORNERS]).unwrap_err();
    for coordinate in [MOST_COORDINATE, -MOST_COORDINATE] {
        assert_eq!(far(coordinate), Refusal::NumberTwice);
        assert_eq!(far(coordinate + coordinate.signum()), Refusal::CoordinateOutOfRange);
    }
}

#[test]
fn a_record_has_its_width_and_a_sheet_its_bytes() {
    assert!(shift(&[0; 3 * LEAST_CORNERS], &[0; WIDTH], 0).is_ok());
    assert_eq!(shift(&[0; 3 * LEAST_CORNERS], &[0; WIDTH - 1], 0), Err(Refusal::CountsOutside));

    // counts past the sheet's are 2; a sheet that is too long is 12 before its counts are looked at
    let sheet = |corners: usize, rows: usize, bytes: usize| {
        let mut text = format!("SKIN\t{corners}\t{rows}\n").into_bytes();
        text.resize(bytes, b'.');
        read_sheet(&text, &mut [], &mut []).unwrap_err()
    };
    assert_eq!(sheet(MOST_SHEET_CORNERS, MOST_SHEET_ROWS, 100), Refusal::SheetForm);
    assert_eq!(sheet(MOST_SHEET_CORNERS + 1, MOST_SHEET_ROWS, 100), Refusal::CountsOutside);
    assert_eq!(sheet(MOST_SHEET_CORNERS, MOST_SHEET_ROWS + 1, 100), Refusal::CountsOutside);
    assert_eq!(sheet(MOST_SHEET_CORNERS, MOST_SHEET_ROWS + 1, MOST_SHEET_BYTES), Refusal::CountsOutside);
    assert_eq!(sheet(MOST_SHEET_CORNERS, MOST_SHEET_ROWS + 1, MOST_SHEET_BYTES + 1), Refusal::SheetForm);
}

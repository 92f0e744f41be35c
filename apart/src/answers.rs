//! What every public call must answer: the refusals in the order 01 gives them, then the outcome, buffers and all.

use crate::desk;
use crate::figures::{figure, shift, sixfold_volume, whole_and_rest};
use crate::flip;
use crate::grow::{grow_back, records_of, replay, Reached};
use crate::job;
use crate::limit::whole_centimetres;
use crate::log_sheet::{self, counts_refused, most_records};
use crate::parts::{catch_up, grid, shorter_ring};
use crate::protocol::*;
use crate::refusal::{FAILS, NOT_UNDONE};
use crate::sheet::{self, GREATEST};
use crate::skin::*;
use crate::step::{thin, WIDTH};

pub fn answer(request: &Request) -> Response {
    if let Some(number) = first_that_holds(&questions(request)) {
        return refused(request, number);
    }
    match request.call {
        // Either engine is asked for the same: the least edge, until none qualifies.
        THIN | THIN_PLAIN => thinned(request),
        GROW_BACK => grown_back(request),
        REPLAY => replayed(request),
        VOLUME => volume(request),
        CHANGE => change(request),
        SHIFT => shift_report(request),
        LIMIT => done(request, &[limit(request).expect("asked before") as Word]),
        SHORTER_RING => handed(request, shorter_ring(&request.arguments[0], &request.arguments[1])),
        CATCH_UP => handed(request, catch_up(&request.arguments[0], &request.arguments[1])),
        READ_SHEET => sheet_read(request),
        TRIAL_RING => handed(request, &words(&grid(8, 8).concat())),
        DESK_ANSWER => desk_answer(request),
        WRITE_LOG_SHEET => log_sheet_written(request),
        READ_LOG_SHEET => log_sheet_read(request),
        READ_RECORDS => records_read(request),
        RECOVER => recovered(request),
        JOB => job_answered(request),
        FLIP => flipped(request),
        UNDO => undone(request),
        OPEN_LOG_SHEET => log_sheet_opened(request),
        RECORD_AT => record_at(request),
        EXACT_SUM => exact_sum(request),
        _ => unreachable!("a request has one of the calls"),
    }
}

/// What the call asks before it works, in its order (13, 30 to 32, and all that a sheet is asked, come in the work).
pub fn questions(request: &Request) -> Vec<Question<'_>> {
    match request.call {
        // Recovery is given the first skin, the room and the order as thinning is, at the same places.
        THIN | THIN_PLAIN | RECOVER => thin_questions(request),
        GROW_BACK => grow_questions(request),
        REPLAY => replay_questions(request),
        VOLUME | EXACT_SUM => stage_questions(request, &[0], 1),
        CHANGE => stage_questions(request, &[0, 1], 2),
        SHIFT => shift_questions(request),
        LIMIT => vec![(1, Box::new(|| limit(request).is_none()))],
        WRITE_LOG_SHEET => writing_questions(request),
        FLIP => flip_questions(request),
        UNDO => undo_questions(request),
        _ => vec![],
    }
}

fn words(numbers: &[u32]) -> Vec<Word> {
    numbers.iter().map(|&n| n.into()).collect()
}

fn numbers(request: &Request, at: usize) -> Vec<u32> {
    request.arguments[at].iter().map(|&w| w as u32).collect()
}

fn coordinates(request: &Request, at: usize) -> Vec<i32> {
    request.arguments[at].iter().map(|&w| w as i32).collect()
}

fn bytes(request: &Request, at: usize) -> Vec<u8> {
    request.arguments[at].iter().map(|&w| w as u8).collect()
}

/// A whole word; one past this machine's counts is past every limit as well.
fn whole(request: &Request, at: usize) -> usize {
    usize::try_from(request.arguments[at][0] as u64).unwrap_or(usize::MAX)
}

fn limit(request: &Request) -> Option<u64> {
    whole_centimetres(request.arguments[0][0], request.arguments[1][0] as u64)
}

/// The limit of a thinning order, where it has one; it was asked before.
fn order(request: &Request) -> Option<u64> {
    if request.arguments[0][0] == 0 {
        None
    } else {
        limit(request)
    }
}

/// Refused: the number, zeros, every buffer untouched.
fn refused(request: &Request, number: i64) -> Response {
    let mut answer = vec![0; request.shape().refused];
    answer[0] = number;
    Response::untouched(request, answer)
}

fn done(request: &Request, rest: &[Word]) -> Response {
    handed(request, &[&[0], rest].concat())
}

fn handed(request: &Request, answer: &[Word]) -> Response {
    Response::untouched(request, answer.to_vec())
}

/// Writes over the front of a lent list.
fn over(list: &mut [Word], front: &[u32]) {
    list[..front.len()].copy_from_slice(&words(front));
}

/// Leaves a stage in front and zeros in the rest.
fn over_and_zeros(list: &mut [Word], rows: &[Row]) {
    list.fill(0);
    over(list, &rows.concat());
}

fn thin_questions(request: &Request) -> Vec<Question<'_>> {
    let (table, corners) = (numbers(request, 2), coordinates(request, 3));
    let count = corners.len() / 3;
    let (rows, given) = (rows_of(&table), corners.clone());
    let unlimited = request.arguments[0][0] == 0;
    let mut questions: Vec<Question> = vec![
        (1, Box::new(move || !unlimited && limit(request).is_none())),
        (2, Box::new(move || table_length_refused(&table) || corner_length_refused(&corners))),
        (3, Box::new(move || request.arguments[4].len() < WIDTH * count.saturating_sub(FEWEST))),
        (4, Box::new(move || coordinate_refused(&given))),
    ];
    questions.extend(table_questions(rows, count, Table::First));
    questions
}

fn thinned(request: &Request) -> Response {
    let (rows, log) = thin(rows_of(&numbers(request, 2)), &corners_of(&coordinates(request, 3)), order(request));
    let mut response = done(request, &[log.len() as Word]);
    over_and_zeros(&mut response.lent[0], &rows);
    over(&mut response.lent[1], &log.concat());
    response
}

fn grow_questions(request: &Request) -> Vec<Question<'_>> {
    let (told, count, room, log) =
        (whole(request, 0), whole(request, 1), numbers(request, 2), request.arguments[3].len());
    // A count past the limit is refused by it; one more than the most keeps the sums small and is past it too.
    let grown = told.min(MOST_ROWS + 1) + 2 * (log / WIDTH);
    let counts = ROWS.contains(&told) && CORNERS.contains(&count) && log % WIDTH == 0 && grown <= MOST_ROWS;
    let rows: Vec<Row> = rows_of(&room).into_iter().take(told).collect();
    let mut questions: Vec<Question> =
        vec![(2, Box::new(move || !counts)), (3, Box::new(move || room.len() < 3 * grown))];
    questions.extend(table_questions(rows, count, Table::Stage));
    questions
}

/// Done, or 13, of flips 32, with the records done; the stage reached is left either way.
fn reached(request: &Request, stage: &Reached) -> Response {
    let fails = if request.call == UNDO { NOT_UNDONE } else { FAILS };
    Response::untouched(request, vec![if stage.whole { 0 } else { fails }, stage.done as Word])
}

fn grown_back(request: &Request) -> Response {
    let standing = numbers(request, 2)[..3 * whole(request, 0)].to_vec();
    let stage = grow_back(rows_of(&standing), whole(request, 1), &records_of(&numbers(request, 3)));
    let mut response = reached(request, &stage);
    over(&mut response.lent[0], &stage.rows.concat());
    response
}

fn replay_questions(request: &Request) -> Vec<Question<'_>> {
    let (count, table, log) = (whole(request, 0), numbers(request, 1), request.arguments[2].len());
    let rows = rows_of(&table);
    let left = rows.len() as i64 - 2 * (log / WIDTH) as i64;
    let counts = !table_length_refused(&table) && CORNERS.contains(&count) && log % WIDTH == 0 && left >= 4;
    let mut questions: Vec<Question> = vec![(2, Box::new(move || !counts))];
    questions.extend(table_questions(rows, count, Table::Stage));
    questions
}

fn replayed(request: &Request) -> Response {
    let stage = replay(rows_of(&numbers(request, 1)), &records_of(&numbers(request, 2)));
    let mut response = reached(request, &stage);
    over_and_zeros(&mut response.lent[0], &stage.rows);
    response
}

/// The questions of volume, exact sum and change: the least number that holds of any of the tables.
fn stage_questions<'a>(request: &'a Request, tables: &'a [usize], corners: usize) -> Vec<Question<'a>> {
    let coordinates = coordinates(request, corners);
    let (count, given) = (coordinates.len() / 3, coordinates.clone());
    let tables: Vec<Vec<u32>> = tables.iter().map(|&at| numbers(request, at)).collect();
    let rows: Vec<Vec<Row>> = tables.iter().map(|table| rows_of(table)).collect();
    let mut questions: Vec<Question> = vec![
        (2, Box::new(move || tables.iter().any(|t| table_length_refused(t)) || corner_length_refused(&coordinates))),
        (4, Box::new(move || coordinate_refused(&given))),
    ];
    questions.extend(rows.into_iter().flat_map(|rows| table_questions(rows, count, Table::Stage)));
    questions.sort_by_key(|(number, _)| *number);
    questions
}

fn sum(request: &Request) -> i128 {
    sixfold_volume(&rows_of(&numbers(request, 0)), &corners_of(&coordinates(request, 1)))
}

fn volume(request: &Request) -> Response {
    done(request, &[figure(sum(request))])
}

fn exact_sum(request: &Request) -> Response {
    done(request, &whole_and_rest(sum(request)))
}

fn change(request: &Request) -> Response {
    let corners = corners_of(&coordinates(request, 2));
    let sum = |at| sixfold_volume(&rows_of(&numbers(request, at)), &corners);
    done(request, &[figure(sum(1) - sum(0))])
}

fn shift_questions(request: &Request) -> Vec<Question<'_>> {
    let corners = coordinates(request, 1);
    let (count, given) = (corners.len() / 3, corners.clone());
    let log = &request.arguments[2];
    let past = move |&word: &Word| word >= count as Word;
    vec![
        (2, Box::new(move || corner_length_refused(&corners) || !log.len().is_multiple_of(WIDTH))),
        (4, Box::new(move || coordinate_refused(&given))),
        (5, Box::new(move || past(&request.arguments[0][0]) || log.chunks(WIDTH).any(|r| r.iter().take(2).any(past)))),
    ]
}

fn shift_report(request: &Request) -> Response {
    let corners = corners_of(&coordinates(request, 1));
    let log = records_of(&numbers(request, 2));
    let (stand_in, count, distance) = shift(request.arguments[0][0] as u32, &corners, &log);
    done(request, &[stand_in.into(), count, distance])
}

fn sheet_read(request: &Request) -> Response {
    let sheet = match sheet::read(&bytes(request, 0)) {
        Ok(sheet) => sheet,
        Err(number) => return refused(request, number),
    };
    let (table, corners) = (sheet.rows.concat(), sheet.corners.concat());
    if request.arguments[1].len() < table.len() || request.arguments[2].len() < corners.len() {
        return refused(request, 3);
    }
    if let Some(number) = first_that_holds(&desk::skin_questions(&sheet)) {
        return refused(request, number);
    }
    let mut response = done(request, &[sheet.corners.len() as Word, sheet.rows.len() as Word]);
    over(&mut response.lent[0], &table);
    for (word, &coordinate) in response.lent[1].iter_mut().zip(&corners) {
        *word = coordinate.into();
    }
    response
}

fn desk_answer(request: &Request) -> Response {
    // A refused sheet is a `NO` line in the text: the call that told it is done.
    let text = desk::text(&bytes(request, 0));
    if request.arguments[1].len() < text.len() {
        return refused(request, 3);
    }
    told(request, text.as_bytes())
}

/// Done: how many bytes, and they in front of the lent text.
fn told(request: &Request, text: &[u8]) -> Response {
    let mut response = done(request, &[text.len() as Word]);
    for (word, &byte) in response.lent[0].iter_mut().zip(text) {
        *word = byte.into();
    }
    response
}

/// The sheet of a log and counts that are lent, whatever they are.
fn sheet_of_log(request: &Request) -> Vec<u8> {
    let [corners, rows] = [0, 1].map(|at| request.arguments[at][0] as u64);
    log_sheet::write(corners, rows, &numbers(request, 2))
}

fn writing_questions(request: &Request) -> Vec<Question<'_>> {
    let (corners, rows, log) = (whole(request, 0), whole(request, 1), &request.arguments[2]);
    let counts = counts_refused(corners, rows);
    let records = !log.len().is_multiple_of(WIDTH) || log.len() / WIDTH > most_records(corners);
    let number = log.iter().any(|&word| word > GREATEST.into());
    vec![
        (2, Box::new(move || counts || records || number)),
        (3, Box::new(|| request.arguments[3].len() < sheet_of_log(request).len())),
    ]
}

fn log_sheet_written(request: &Request) -> Response {
    told(request, &sheet_of_log(request))
}

/// Corner count, rows and records of a log sheet.
fn three_counts(sheet: &log_sheet::LogSheet) -> Vec<Word> {
    [sheet.corners, sheet.rows, sheet.log.len()].map(|count| count as Word).to_vec()
}

fn log_sheet_read(request: &Request) -> Response {
    let sheet = match log_sheet::read(&bytes(request, 0)) {
        Ok(sheet) => sheet,
        Err(number) => return refused(request, number),
    };
    let log = sheet.log.concat();
    if request.arguments[1].len() < log.len() {
        return refused(request, 3);
    }
    let mut response = done(request, &three_counts(&sheet));
    over(&mut response.lent[0], &log);
    response
}

fn records_read(request: &Request) -> Response {
    match log_sheet::one_at_a_time(&bytes(request, 0)) {
        Ok(sheet) => done(request, &[three_counts(&sheet), words(&sheet.log.concat())].concat()),
        Err(number) => refused(request, number),
    }
}

fn log_sheet_opened(request: &Request) -> Response {
    match log_sheet::open(&bytes(request, 0)) {
        Ok((corners, rows, place)) => done(request, &[corners, rows, place].map(|count| count as Word)),
        Err(number) => refused(request, number),
    }
}

fn record_at(request: &Request) -> Response {
    match log_sheet::at(&bytes(request, 0), whole(request, 1)) {
        Ok(Some((record, after))) => done(request, &[vec![1, after as Word], words(&record)].concat()),
        // The end: the place as given, and zeros.
        Ok(None) => done(request, &[vec![0, request.arguments[1][0]], vec![0; WIDTH]].concat()),
        Err(number) => refused(request, number),
    }
}

fn job_answered(request: &Request) -> Response {
    match job::topmost_net(&bytes(request, 0)) {
        Ok(net) => done(request, &[figure(net)]),
        Err(number) => refused(request, number),
    }
}

/// The sheet is asked after the skin: its form (12), its counts against the skin's and its records against the corners
/// (2). Then its records are replayed, and thinning goes on from the stage handed over, but not where one fails (13).
fn recovered(request: &Request) -> Response {
    let (rows, corners) = (rows_of(&numbers(request, 2)), corners_of(&coordinates(request, 3)));
    let sheet = match log_sheet::recover(&bytes(request, 5)) {
        Ok(sheet) => sheet,
        Err(number) => return refused(request, number),
    };
    let other_counts = (sheet.corners, sheet.rows) != (corners.len(), rows.len());
    if other_counts || sheet.log.len() > most_records(corners.len()) {
        return refused(request, 2);
    }
    let stage = replay(rows, &sheet.log);
    let mut response = reached(request, &stage);
    let (left, added) = if stage.whole { thin(stage.rows, &corners, order(request)) } else { (stage.rows, vec![]) };
    let log = [&sheet.log[..stage.done], &added].concat();
    response.answer.push(log.len() as Word);
    over_and_zeros(&mut response.lent[0], &left);
    over(&mut response.lent[1], &log.concat());
    response
}

/// The questions of a table and a corner count that are told: 2, where another list has a wrong length as well, and 5 to
/// 11 of a stage.
fn told_stage_questions(request: &Request, other_length: bool) -> [Vec<Question<'_>>; 2] {
    let (count, table) = (whole(request, 0), numbers(request, 1));
    let rows = rows_of(&table);
    let counts = table_length_refused(&table) || !CORNERS.contains(&count) || other_length;
    [vec![(2, Box::new(move || counts))], table_questions(rows, count, Table::Stage)]
}

/// "Room for the flip log, eight numbers for each listed edge, is tested before any flip and gives 3."
fn flip_questions(request: &Request) -> Vec<Question<'_>> {
    let (listed, room) = (request.arguments[2].len(), request.arguments[3].len());
    let [mut questions, of_rows] = told_stage_questions(request, !listed.is_multiple_of(2));
    questions.push((3, Box::new(move || room < flip::WIDTH * (listed / 2))));
    questions.extend(of_rows);
    questions
}

/// Table and log hold the flips done and no others, whatever stopped the list.
fn flipped(request: &Request) -> Response {
    let done = flip::flip_all(rows_of(&numbers(request, 1)), &flip::edges_of(&numbers(request, 2)));
    let mut response = handed(request, &[done.refused.unwrap_or(0), done.log.len() as Word]);
    over(&mut response.lent[0], &done.rows.concat());
    over(&mut response.lent[1], &done.log.concat());
    response
}

fn undo_questions(request: &Request) -> Vec<Question<'_>> {
    let log = request.arguments[2].len();
    told_stage_questions(request, !log.is_multiple_of(flip::WIDTH)).into_iter().flatten().collect()
}

fn undone(request: &Request) -> Response {
    let log = flip::records_of(&numbers(request, 2));
    let stage = flip::undo_all(rows_of(&numbers(request, 1)), whole(request, 0), &log);
    let mut response = reached(request, &stage);
    over(&mut response.lent[0], &stage.rows.concat());
    response
}

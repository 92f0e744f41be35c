//! The desk: a sheet thinned without limit, and the whole text the program writes for it.

use crate::figures::{figure, sixfold_volume};
use crate::sheet::{self, Sheet};
use crate::skin::{coordinate_refused, first_that_holds, table_questions, Question, Table};
use crate::step::thin;

/// What a sheet in good form is asked after its room: 4, then 5 to 11 of a first table.
pub fn skin_questions(sheet: &Sheet) -> Vec<Question<'_>> {
    let mut questions: Vec<Question> = vec![(4, Box::new(|| coordinate_refused(&sheet.corners.concat())))];
    questions.extend(table_questions(sheet.rows.clone(), sheet.corners.len(), Table::First));
    questions
}

/// The lines of an accepted sheet, or the number it is refused by.
pub fn lines(bytes: &[u8]) -> Result<String, i64> {
    let sheet = sheet::read(bytes)?;
    if let Some(number) = first_that_holds(&skin_questions(&sheet)) {
        return Err(number);
    }
    let first = sixfold_volume(&sheet.rows, &sheet.corners);
    let (rows, log) = thin(sheet.rows, &sheet.corners, None);
    let last = sixfold_volume(&rows, &sheet.corners);
    let mut text = format!("OK\t{}\t{}\t{}\t{}\n", rows.len(), log.len(), figure(first), figure(last));
    for row in &rows {
        text += &line("R", row);
    }
    for record in &log {
        text += &line("K", record);
    }
    Ok(text)
}

pub fn line(name: &str, numbers: &[u32]) -> String {
    let fields: String = numbers.iter().map(|n| format!("\t{n}")).collect();
    format!("{name}{fields}\n")
}

pub fn no(number: i64) -> String {
    format!("NO\t{number}\n")
}

/// The whole text of the program: the lines, or `NO` and the number.
pub fn text(bytes: &[u8]) -> String {
    lines(bytes).unwrap_or_else(no)
}

//! The two programs answered by these rules: `calls` over its pipe, and the desk.

use crate::answers::answer;
use crate::desk;
use crate::protocol::{bytes_of, Request};
use crate::sheet::MOST_BYTES;
use crate::spoil::Spoiler;
use std::io::{self, BufReader, Read, Write};

/// Answers requests until the input ends or a request is none; a spoiler, where there is one, has each response before
/// it goes out.
pub fn calls(spoiler: Option<Spoiler>) -> io::Result<()> {
    let mut input = BufReader::new(io::stdin().lock());
    let mut output = io::stdout().lock();
    let mut next = || {
        let mut word = [0; 8];
        input.read_exact(&mut word).ok().map(|()| i64::from_le_bytes(word))
    };
    while let Some(request) = Request::read(&mut next) {
        let mut response = answer(&request);
        if let Some(spoiler) = &spoiler {
            spoiler.pass(&request, &mut response)?;
        }
        output.write_all(&bytes_of(&response.words()))?;
        output.flush()?;
    }
    Ok(())
}

/// Reads one sheet, no further than it takes to see that it is too long, and writes the desk's text.
pub fn desk(spoiler: Option<Spoiler>) -> io::Result<()> {
    let mut bytes = Vec::new();
    io::stdin().lock().take(MOST_BYTES as u64 + 1).read_to_end(&mut bytes)?;
    let mut text = desk::text(&bytes).into_bytes();
    if let Some(spoiler) = &spoiler {
        spoiler.pass_text(&mut text)?;
    }
    io::stdout().lock().write_all(&text)
}

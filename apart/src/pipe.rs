//! A driven program: fed and read by threads of their own, so that neither a full pipe nor silence can stop a run.

use crate::protocol::{Response, Word};
use std::io::{Read, Write};
use std::process::{Child, Command, Stdio};
use std::sync::mpsc::{channel, sync_channel, Receiver, RecvTimeoutError, SyncSender};
use std::thread;
use std::time::{Duration, Instant};

/// What is said of a program that does not answer.
pub const LATE: &str = "no answer in time";
/// Longer than any answer or list: a length above it is no length.
const NO_LENGTH: Word = 1 << 20;
/// Parcels that may wait unread: more than a round sends, few enough for input that never ends.
const WAITING: usize = 1_024;

pub struct Driven {
    child: Child,
    feed: Option<SyncSender<Vec<u8>>>,
    output: Receiver<Vec<u8>>,
    held: Vec<u8>,
    taken: usize,
}

impl Driven {
    pub fn start(path: &str) -> Result<Driven, String> {
        let mut child = Command::new(path)
            .stdin(Stdio::piped())
            .stdout(Stdio::piped())
            .stderr(Stdio::null())
            .spawn()
            .map_err(|e| format!("{path} does not start: {e}"))?;
        let mut input = child.stdin.take().expect("piped");
        let mut found = child.stdout.take().expect("piped");
        let (feed, parcels) = sync_channel::<Vec<u8>>(WAITING);
        // Ends, and so closes the program's input, when the feed is dropped or the program reads no more.
        thread::spawn(move || {
            for parcel in parcels {
                if input.write_all(&parcel).and_then(|()| input.flush()).is_err() {
                    break;
                }
            }
        });
        let (send, output) = channel();
        thread::spawn(move || {
            let mut part = vec![0; 1 << 16];
            while let Ok(length) = found.read(&mut part) {
                if length == 0 || send.send(part[..length].to_vec()).is_err() {
                    break;
                }
            }
        });
        Ok(Driven { child, feed: Some(feed), output, held: Vec::new(), taken: 0 })
    }

    pub fn send(&mut self, bytes: Vec<u8>) {
        if let Some(feed) = &self.feed {
            // A program that has ended takes nothing; its missing answer is what tells.
            let _ = feed.send(bytes);
        }
    }

    /// A second hand on the feed, for input that never ends.
    pub fn feeder(&self) -> Option<SyncSender<Vec<u8>>> {
        self.feed.clone()
    }

    pub fn close(&mut self) {
        self.feed = None;
    }

    /// Waits for more output: true when some came, false when the output ended.
    fn more(&mut self, until: Instant) -> Result<bool, String> {
        match self.output.recv_timeout(until.saturating_duration_since(Instant::now())) {
            Ok(part) => {
                self.held.drain(..self.taken);
                self.taken = 0;
                self.held.extend(part);
                Ok(true)
            }
            Err(RecvTimeoutError::Disconnected) => Ok(false),
            Err(RecvTimeoutError::Timeout) => Err(LATE.to_string()),
        }
    }

    fn word(&mut self, until: Instant) -> Result<Word, String> {
        while self.held.len() - self.taken < 8 {
            if !self.more(until)? {
                return Err("the program ended".to_string());
            }
        }
        let bytes = &self.held[self.taken..self.taken + 8];
        self.taken += 8;
        Ok(Word::from_le_bytes(bytes.try_into().expect("eight bytes")))
    }

    fn list(&mut self, until: Instant) -> Result<Vec<Word>, String> {
        let length = self.word(until)?;
        if !(0..NO_LENGTH).contains(&length) {
            return Err(format!("{length} is no length of a list"));
        }
        (0..length).map(|_| self.word(until)).collect()
    }

    /// One response with this many lent lists.
    pub fn response(&mut self, lent: usize, patience: Duration) -> Result<Response, String> {
        let until = Instant::now() + patience;
        let answer = self.list(until)?;
        let lent: Result<Vec<Vec<Word>>, String> = (0..lent).map(|_| self.list(until)).collect();
        Ok(Response { answer, lent: lent? })
    }

    /// All output until the program ends.
    pub fn rest(&mut self, patience: Duration) -> Result<Vec<u8>, String> {
        let until = Instant::now() + patience;
        while self.more(until)? {}
        Ok(self.held.split_off(self.taken))
    }
}

impl Drop for Driven {
    fn drop(&mut self) {
        // Kills a program that has not ended; one that has is only waited for.
        let _ = self.child.kill();
        let _ = self.child.wait();
    }
}

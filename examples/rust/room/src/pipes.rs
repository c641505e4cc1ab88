//! Processes that are connected by pipes.
use crate::protocol::{LINE_MOST, choice_of};
use gen1::Side;
use std::collections::VecDeque;
use std::io::{self, Read, Write};
use std::process::{Child, ChildStdin, ChildStdout, Command, Stdio};
use std::sync::mpsc::{self, Sender};
use std::sync::{Arc, Condvar, Mutex};
use std::thread::{self, JoinHandle};
use std::time::{Duration, Instant};

/// How many lines of a player are kept before its thread stops reading. A player that floods the room blocks on its own full pipe.
const KEPT: usize = 16;

/// What came from a player.
#[derive(Clone, Copy, Debug, PartialEq)]
pub enum Said {
    /// A choice for a pair.
    Choice(u32, u8),
    /// A line that is not a choice.
    Rubbish,
    /// It has closed its end.
    Gone,
}

/// The lines of both players that the room has not yet handled.
#[derive(Clone, Default)]
pub struct Mailbox {
    inner: Arc<(Mutex<Kept>, Condvar)>,
}

#[derive(Default)]
struct Kept {
    said: [VecDeque<Said>; 2],
    /// The side whose line is handled next, so that neither waits for the other's flood.
    turn: usize,
    /// The sides that the host has stopped reading.
    is_deaf: [bool; 2],
}

impl Mailbox {
    /// Keeps a line of a side when there is room for it, and returns whether the side is still read.
    fn put(&self, side: Side, said: Said) -> bool {
        let (kept, changed) = &*self.inner;
        let at = usize::from(side.number()) - 1;
        let kept = kept.lock().expect("no thread has panicked");
        let mut kept = changed
            .wait_while(kept, |kept| {
                kept.said[at].len() >= KEPT && !kept.is_deaf[at]
            })
            .expect("no thread has panicked");
        if !kept.is_deaf[at] {
            kept.said[at].push_back(said);
            changed.notify_all();
        }
        !kept.is_deaf[at]
    }

    /// Stops reading a side; its thread ends.
    pub fn deafen(&self, side: Side) {
        let (kept, changed) = &*self.inner;
        let at = usize::from(side.number()) - 1;
        let mut kept = kept.lock().expect("no thread has panicked");
        kept.is_deaf[at] = true;
        kept.said[at].clear();
        changed.notify_all();
    }

    /// The next line of either player, alternating between them; `None` if there is none by a time.
    pub fn next(&self, until: Instant) -> Option<(Side, Said)> {
        let (kept, changed) = &*self.inner;
        let kept = kept.lock().expect("no thread has panicked");
        let left = until.saturating_duration_since(Instant::now());
        let silent = |kept: &mut Kept| kept.said.iter().all(VecDeque::is_empty);
        let (mut kept, _) = changed
            .wait_timeout_while(kept, left, silent)
            .expect("no thread has panicked");
        for at in [kept.turn, 1 - kept.turn] {
            if let Some(said) = kept.said[at].pop_front() {
                kept.turn = 1 - at;
                changed.notify_all();
                return Some((Side::BOTH[at], said));
            }
        }
        None
    }
}

/// A process that the room started, and its pipes.
pub struct Process {
    child: Child,
    to: Option<Sender<Vec<u8>>>,
    /// The thread that reads it. It keeps the room's end of the pipe open even after it has ended, so that a process that still writes
    /// blocks on a full pipe, and is not killed by a signal before it has read its last line.
    listener: Option<JoinHandle<ChildStdout>>,
}

impl Process {
    /// Starts the process of a command, whose words are separated by white space. The first word `room` means this program. A player's
    /// output goes to the mailbox; the spectator writes to the room's standard output.
    pub fn begin(command: &str, player: Option<(Side, &Mailbox)>) -> io::Result<Process> {
        let mut words = command.split_whitespace();
        let program = words
            .next()
            .ok_or(io::Error::other("a command has no words"))?;
        let mut begun = if program == "room" {
            Command::new(std::env::current_exe()?)
        } else {
            Command::new(program)
        };
        begun.args(words).stdin(Stdio::piped());
        if player.is_some() {
            begun.stdout(Stdio::piped());
        }
        let mut child = begun.spawn()?;
        let (to, lines) = mpsc::channel();
        let stdin = child.stdin.take().expect("it is piped");
        thread::spawn(move || write_all(stdin, &lines));
        let listener = child
            .stdout
            .take()
            .zip(player)
            .map(|(from, (side, mailbox))| {
                let mailbox = mailbox.clone();
                thread::spawn(move || listen(from, side, &mailbox))
            });
        Ok(Process {
            child,
            to: Some(to),
            listener,
        })
    }

    /// Sends bytes without waiting for the process to read them. Their total is bounded by the battle's turn limit.
    pub fn send(&self, bytes: impl Into<Vec<u8>>) {
        if let Some(to) = &self.to {
            // A process that has ended does not get them.
            let _ = to.send(bytes.into());
        }
    }

    /// Closes the process's input.
    pub fn close(&mut self) {
        self.to = None;
    }

    /// Waits for the process to end, and kills it if it has not ended by a time.
    pub fn end(mut self, until: Instant) {
        self.close();
        while matches!(self.child.try_wait(), Ok(None)) {
            if Instant::now() >= until {
                // It may have ended by itself in the meantime.
                let _ = self.child.kill();
                let _ = self.child.wait();
                break;
            }
            thread::sleep(Duration::from_millis(2));
        }
        drop(self.listener);
    }
}

/// Writes the bytes to send, until none are left or the process stops reading.
fn write_all(mut to: ChildStdin, lines: &mpsc::Receiver<Vec<u8>>) {
    for bytes in lines {
        if to.write_all(&bytes).is_err() {
            return;
        }
    }
}

/// Reads a player's lines, cut to the length of the longest valid one, until it ends or the host stops reading it.
fn listen<R: Read>(mut from: R, side: Side, mailbox: &Mailbox) -> R {
    let (mut bytes, mut line) = ([0; 4096], Vec::new());
    loop {
        let count = match from.read(&mut bytes) {
            Err(why) if why.kind() == io::ErrorKind::Interrupted => continue,
            Ok(count) if count > 0 => count,
            _ => {
                mailbox.put(side, Said::Gone);
                return from;
            }
        };
        for &byte in &bytes[..count] {
            if byte == b'\n' {
                let said = choice_of(&line)
                    .map_or(Said::Rubbish, |(number, byte)| Said::Choice(number, byte));
                if !mailbox.put(side, said) {
                    return from;
                }
                line.clear();
            } else if line.len() <= LINE_MOST {
                line.push(byte);
            }
        }
    }
}

#[cfg(test)]
mod tests {
    use super::*;

    fn soon() -> Instant {
        Instant::now() + Duration::from_secs(20)
    }

    #[test]
    fn a_flood_does_not_keep_the_other_waiting() {
        let mailbox = Mailbox::default();
        let flooded = mailbox.clone();
        thread::spawn(move || listen(io::repeat(b'\n'), Side::One, &flooded));
        listen(&b"0 17\n1 18"[..], Side::Two, &mailbox);
        // However much the other player sends, both are read in turn. An incomplete line at the end is dropped.
        let heard: Vec<_> = (0..4).filter_map(|_| mailbox.next(soon())).collect();
        let of_two: Vec<_> = heard
            .iter()
            .filter(|it| it.0 == Side::Two)
            .map(|it| it.1)
            .collect();
        assert_eq!(of_two, [Said::Choice(0, 17), Said::Gone]);
    }

    #[test]
    fn a_side_that_is_not_heard_does_not_wait() {
        let mailbox = Mailbox::default();
        let flooded = mailbox.clone();
        let flood = thread::spawn(move || listen(io::repeat(b'\n'), Side::Two, &flooded));
        assert_eq!(mailbox.next(soon()), Some((Side::Two, Said::Rubbish)));
        mailbox.deafen(Side::Two);
        flood.join().expect("the thread ends");
        assert_eq!(mailbox.next(Instant::now()), None);
    }

    #[test]
    fn silence_ends_at_its_time() {
        let begun = Instant::now();
        assert_eq!(
            Mailbox::default().next(begun + Duration::from_millis(30)),
            None
        );
        assert!(begun.elapsed() >= Duration::from_millis(30));
    }

    #[test]
    fn long_lines_are_rubbish_and_the_next_is_read() {
        let mailbox = Mailbox::default();
        let text = [&[b'0'; 100_000][..], b"\n3 20\n"].concat();
        listen(&text[..], Side::One, &mailbox);
        let heard: Vec<_> = (0..3)
            .filter_map(|_| mailbox.next(soon()))
            .map(|it| it.1)
            .collect();
        assert_eq!(heard, [Said::Rubbish, Said::Choice(3, 20), Said::Gone]);
    }
}

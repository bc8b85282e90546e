//! Runs the program `routeline`: the whole file at once, in small pieces, or line
//! by line with a look at what it has printed so far.

use crate::frames::FileAnswer;
use crate::random::Random;
use std::io::{Read, Write};
use std::path::Path;
use std::process::{Child, ChildStdin, Command, Stdio};
use std::sync::mpsc::{channel, Receiver, RecvTimeoutError};
use std::thread;
use std::time::{Duration, Instant};

/// No file takes this long; a program that does is stuck.
const PATIENCE: Duration = Duration::from_secs(60);

/// How long an answer may take to come while the input is still open.
const LIVE_PATIENCE: Duration = Duration::from_secs(20);

pub struct Running {
    child: Child,
    output: Receiver<Vec<u8>>,
    seen: Vec<u8>,
}

impl Running {
    fn start(program: &Path) -> Result<(Running, ChildStdin), String> {
        let mut child = Command::new(program)
            .stdin(Stdio::piped())
            .stdout(Stdio::piped())
            .spawn()
            .map_err(|error| format!("cannot run {}: {error}", program.display()))?;
        let input = child.stdin.take().ok_or("no standard input")?;
        let mut pipe = child.stdout.take().ok_or("no standard output")?;
        let (send, output) = channel();
        // The output is drained at all times, so that the program never waits for us.
        thread::spawn(move || {
            let mut piece = vec![0; 65_536];
            while let Ok(count) = pipe.read(&mut piece) {
                if count == 0 || send.send(piece[..count].to_vec()).is_err() {
                    return;
                }
            }
        });
        Ok((Running { child, output, seen: Vec::new() }, input))
    }

    /// Waits until `enough` bytes were printed, or for the end of the output.
    /// True if the output ended.
    fn wait_for(&mut self, enough: Option<usize>, patience: Duration) -> Result<bool, String> {
        let until = Instant::now() + patience;
        while enough.is_none_or(|enough| self.seen.len() < enough) {
            let left = until.saturating_duration_since(Instant::now());
            match self.output.recv_timeout(left) {
                Ok(piece) => self.seen.extend(piece),
                Err(RecvTimeoutError::Disconnected) => return Ok(true),
                Err(RecvTimeoutError::Timeout) => return Err(format!("nothing more came within {patience:?}")),
            }
        }
        Ok(false)
    }

    /// The end of the output and of the program.
    fn finish(mut self) -> Result<Vec<u8>, (String, Vec<u8>)> {
        let ended = self.wait_for(None, PATIENCE);
        if ended.is_err() {
            // Only the child started here is ended.
            let _ = self.child.kill();
        }
        let status = self.child.wait();
        if let Err(what) = ended {
            return Err((what, self.seen));
        }
        match status {
            Ok(status) if status.code().is_some() => Ok(self.seen),
            Ok(status) => Err((format!("the program was ended: {status}"), self.seen)),
            Err(error) => Err((error.to_string(), self.seen)),
        }
    }

    fn give_up(mut self, what: String) -> (String, Vec<u8>) {
        let _ = self.child.kill();
        let _ = self.child.wait();
        (what, self.seen)
    }
}

/// A program that has stopped after a file refusal no longer reads: that is no error.
fn write(input: &mut ChildStdin, bytes: &[u8]) {
    let _ = input.write_all(bytes);
    let _ = input.flush();
}

type Printed = Result<Vec<u8>, (String, Vec<u8>)>;

/// The whole file at once.
pub fn run(program: &Path, file: &[u8]) -> Printed {
    let (running, mut input) = Running::start(program).map_err(|what| (what, Vec::new()))?;
    write(&mut input, file);
    drop(input);
    running.finish()
}

/// The file in pieces of a few bytes, so that lines are torn at every place.
pub fn run_in_pieces(program: &Path, file: &[u8], random: &mut Random) -> Printed {
    let (running, mut input) = Running::start(program).map_err(|what| (what, Vec::new()))?;
    let most = random.pick(&[1, 3, 20, 200]);
    let mut rest = file;
    while !rest.is_empty() {
        let (piece, after) = rest.split_at(rest.len().min(1 + random.below(most)));
        write(&mut input, piece);
        rest = after;
        if random.chance(20) {
            thread::yield_now();
        }
    }
    drop(input);
    running.finish()
}

/// "Prints the answer lines of each query as it is read, and stops after an FF of
/// a file refusal": both are looked at while the input is still open.
pub fn run_live(program: &Path, file: &[u8], expected: &FileAnswer) -> Printed {
    let (mut running, mut input) = Running::start(program).map_err(|what| (what, Vec::new()))?;
    let mut written = 0;
    for (number, settled) in expected.settled.iter().enumerate() {
        write(&mut input, &file[written..settled.input]);
        written = settled.input;
        if let Err(what) = running.wait_for(Some(settled.output), LIVE_PATIENCE) {
            return Err(running.give_up(format!("query {}, input still open: {what}", number + 1)));
        }
        if running.seen != expected.output[..running.seen.len().min(settled.output)] {
            return Err(running.give_up(format!("query {}, input still open: other output", number + 1)));
        }
    }
    if let (Some(_), Some(settled)) = (expected.file_refusal, expected.refused_at) {
        write(&mut input, &file[written..settled]);
        if let Err(what) = running.wait_for(None, LIVE_PATIENCE) {
            return Err(running.give_up(format!("file refusal, input still open, not stopped: {what}")));
        }
    } else {
        write(&mut input, &file[written..]);
    }
    drop(input);
    running.finish()
}

/// The most memory the program held, in KiB: looked at in /proc once `expected`
/// bytes were printed and while its input is still open. `None` where that fails.
pub fn most_memory(program: &Path, file: &[u8], expected: usize) -> Option<u64> {
    let (mut running, mut input) = Running::start(program).ok()?;
    write(&mut input, file);
    let printed = running.wait_for(Some(expected), LIVE_PATIENCE);
    let status = std::fs::read_to_string(format!("/proc/{}/status", running.child.id()));
    drop(input);
    running.finish().ok()?;
    printed.ok()?;
    let status = status.ok()?;
    let line = status.lines().find(|line| line.starts_with("VmHWM:"))?;
    line.split_whitespace().nth(1)?.parse().ok()
}

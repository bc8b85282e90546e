//! The C entry `display_answer` of `libdisplay.a`, called through the program
//! `c/entry.c`, and the comparison of one file at several rooms.

use std::io::{Read, Write};
use std::ops::Range;
use std::path::Path;
use std::process::{Child, Command, Stdio};

/// Guard bytes on either side of the room.
pub const GUARD: usize = 64;

/// What the entry did with a room.
pub struct Shown {
    pub count: usize,
    pub room: Vec<u8>,
}

/// A running program that calls the entry, one call after the other.
pub struct Entry {
    child: Child,
}

/// What a call returned, and the file and the lent memory after it.
struct Called {
    count: usize,
    file: Vec<u8>,
    memory: Vec<u8>,
}

impl Entry {
    pub fn start(program: &Path) -> Result<Entry, String> {
        let child = Command::new(program).stdin(Stdio::piped()).stdout(Stdio::piped()).spawn();
        Ok(Entry { child: child.map_err(|error| format!("cannot run {}: {error}", program.display()))? })
    }

    /// One call: a request and its reply, as `c/entry.c` has them.
    fn call(&mut self, file: &[u8], memory: &[u8], room: Range<usize>) -> std::io::Result<Called> {
        let input = self.child.stdin.as_mut().expect("standard input is piped");
        let mut request = Vec::new();
        for number in [file.len(), memory.len(), room.start, room.len()] {
            request.extend((number as u64).to_le_bytes());
        }
        request.extend(file);
        request.extend(memory);
        input.write_all(&request)?;
        let output = self.child.stdout.as_mut().expect("standard output is piped");
        let mut count = [0; 8];
        let mut called = Called { count: 0, file: vec![0; file.len()], memory: vec![0; memory.len()] };
        output.read_exact(&mut count)?;
        output.read_exact(&mut called.file)?;
        output.read_exact(&mut called.memory)?;
        called.count = u64::from_le_bytes(count) as usize;
        Ok(called)
    }
}

impl Drop for Entry {
    /// The end of its input ends the program.
    fn drop(&mut self) {
        drop(self.child.stdin.take());
        let _ = self.child.wait();
    }
}

/// The byte that stands at a place of the lent memory before the call; it is no
/// digit and no line feed, so that a byte written is a byte seen.
pub fn old_byte(at: usize) -> u8 {
    128 + (at % 97) as u8
}

/// Calls the entry with a room of `size` bytes; tells whether it wrote outside.
pub fn show(entry: &mut Entry, file: &[u8], size: usize) -> Result<Shown, String> {
    let memory: Vec<u8> = (0..size + 2 * GUARD).map(old_byte).collect();
    let called = entry.call(file, &memory, GUARD..GUARD + size).map_err(|error| {
        let ended = entry.child.wait().map_or(String::new(), |status| format!(" ({status})"));
        format!("room of {size}: no reply: {error}{ended}")
    })?;
    if called.file != file {
        return Err("the display entry changed the file's bytes".into());
    }
    let outside = (0..GUARD).chain(GUARD + size..memory.len());
    for at in outside {
        if called.memory[at] != old_byte(at) {
            return Err(format!("room of {size}: a byte outside the room was changed"));
        }
    }
    Ok(Shown { count: called.count, room: called.memory[GUARD..GUARD + size].to_vec() })
}

/// The rooms to try for these answer lines: ample, one more than needed, just
/// enough, one short, enough for the first line alone, one byte, none.
pub fn rooms(lines: &[u8]) -> [usize; 7] {
    let length = lines.len();
    let first = lines.iter().position(|&byte| byte == b'\n').map_or(0, |feed| feed + 1);
    [length + 1_000, length + 1, length, length.saturating_sub(1), first, 1, 0]
}

/// Compares one room with what docs/RULES.md, "The display", says of it.
pub fn compare(entry: &mut Entry, file: &[u8], expected: &[u8], size: usize) -> Result<(), (String, Vec<u8>)> {
    let shown = show(entry, file, size).map_err(|what| (what, Vec::new()))?;
    judge(&shown, expected, size).map_err(|what| (what, shown.room))
}

/// If the lines fit: their count, the lines, the rest unchanged. If not: 0 and
/// nothing changed.
pub fn judge(shown: &Shown, expected: &[u8], size: usize) -> Result<(), String> {
    let written = if expected.len() <= size { expected } else { &[] };
    if shown.count != written.len() {
        return Err(format!("room of {size}: count {} instead of {}", shown.count, written.len()));
    }
    if &shown.room[..written.len()] != written {
        return Err(format!("room of {size}: other answer lines"));
    }
    for at in written.len()..size {
        if shown.room[at] != old_byte(GUARD + at) {
            return Err(format!("room of {size}: byte {at}, beyond the lines, was changed"));
        }
    }
    Ok(())
}

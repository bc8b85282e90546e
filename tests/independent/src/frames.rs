//! One line's frame and the answer lines (docs/RULES.md, "District frames"), and a whole
//! file from its bytes to the bytes of its answers (docs/RULES.md, "Input order").

use crate::model::{self, Answer, Arc, Fault, Figures, Network, Node, Query, Refusal};

/// The longest input frame is a 07 with 255 entries: 2 + 4 + 4 + 4 + 2 + 255 digits.
pub const MOST_DIGITS: usize = 271;

/// This line is 11 whatever it holds.
pub const LAST_LINE: u32 = 4_294_967_295;

#[derive(Clone, Debug, PartialEq, Eq)]
pub enum Frame {
    Size { nodes: usize, arcs: usize },
    OneWay(Arc),
    TwoWay(Arc),
    Potentials { node: usize, values: Node },
    Query(Query),
}

// ---------------------------------------------------------------- reading one line

/// The digits of a line, taken from the left field by field.
struct Fields<'a> {
    rest: &'a [u8],
}

impl Fields<'_> {
    fn take(&mut self, digits: usize) -> Option<u32> {
        if self.rest.len() < digits {
            return None;
        }
        let (field, rest) = self.rest.split_at(digits);
        self.rest = rest;
        let mut value = 0u32;
        for &byte in field {
            value = value * 16 + digit_value(byte)?;
        }
        Some(value)
    }

    fn arc(&mut self) -> Option<Arc> {
        Some(Arc { tail: self.take(4)?, head: self.take(4)?, weight: self.take(8)? })
    }

    fn potentials(&mut self) -> Option<Frame> {
        let node = self.take(4)? as usize;
        // Two's complement: the same 32 bits, read as signed.
        let values = Node { h: self.take(8)? as i32, k: self.take(8)? as i32 };
        Some(Frame::Potentials { node, values })
    }

    fn query(&mut self, capped: bool) -> Option<Frame> {
        let (start, end) = (self.take(4)?, self.take(4)?);
        let cap = if capped { Some(self.take(4)? as u16) } else { None };
        let entries = self.take(2)?;
        let mut pattern = Vec::new();
        for _ in 0..entries {
            pattern.push(self.take(1)? as u8);
        }
        Some(Frame::Query(Query { start, end, pattern, cap }))
    }
}

fn digit_value(byte: u8) -> Option<u32> {
    match byte {
        b'0'..=b'9' => Some(u32::from(byte - b'0')),
        b'A'..=b'F' => Some(u32::from(byte - b'A') + 10),
        _ => None,
    }
}

/// The frame of a line without its line feed; `None` if it is no sound frame.
pub fn read_frame(line: &[u8]) -> Option<Frame> {
    let mut fields = Fields { rest: line };
    let frame = match fields.take(2)? {
        0x01 => Frame::Size { nodes: fields.take(4)? as usize, arcs: fields.take(4)? as usize },
        0x02 => Frame::OneWay(fields.arc()?),
        0x05 => Frame::TwoWay(fields.arc()?),
        0x03 => fields.potentials()?,
        0x04 => fields.query(false)?,
        0x07 => fields.query(true)?,
        _ => return None,
    };
    fields.rest.is_empty().then_some(frame)
}

// ---------------------------------------------------------------- writing lines

/// An input frame's line, with its line feed.
pub fn frame_line(frame: &Frame) -> String {
    match frame {
        Frame::Size { nodes, arcs } => format!("01{nodes:04X}{arcs:04X}\n"),
        Frame::OneWay(arc) => format!("02{:04X}{:04X}{:08X}\n", arc.tail, arc.head, arc.weight),
        Frame::TwoWay(arc) => format!("05{:04X}{:04X}{:08X}\n", arc.tail, arc.head, arc.weight),
        Frame::Potentials { node, values } => format!("03{node:04X}{:08X}{:08X}\n", values.h, values.k),
        Frame::Query(query) => {
            let entries: String = query.pattern.iter().map(|entry| format!("{entry:X}")).collect();
            let (kind, cap) = query.cap.map_or(("04", String::new()), |cap| ("07", format!("{cap:04X}")));
            format!("{kind}{:04X}{:04X}{cap}{:02X}{entries}\n", query.start, query.end, query.pattern.len())
        }
    }
}

pub fn refusal_line(refusal: Refusal) -> String {
    format!("FF{:02X}{:08X}\n", refusal.number, refusal.place)
}

fn figures_digits(figures: &Figures) -> String {
    let Figures { turns, opened_by_start, opened_by_end, rejected } = figures;
    format!("{turns:04X}{opened_by_start:04X}{opened_by_end:04X}{rejected:04X}")
}

fn path_line(path: &[usize]) -> String {
    let nodes: String = path.iter().map(|node| format!("{node:04X}")).collect();
    format!("82{nodes}\n")
}

pub fn answer_lines(answer: &Answer) -> String {
    match answer {
        Answer::Refused(refusal) => refusal_line(*refusal),
        Answer::NoRoute { figures } => format!("80{}\n", figures_digits(figures)),
        Answer::Route { length, path, figures } => {
            format!("81{length:08X}{:04X}{}\n{}", path.len(), figures_digits(figures), path_line(path))
        }
        Answer::Provisional { length, excess, path } => format!("84{length:08X}{excess:08X}\n{}", path_line(path)),
        Answer::Undecided { turns } => format!("85{turns:04X}\n"),
    }
}

// ---------------------------------------------------------------- a whole file

/// Who reads the file: the program takes any number of queries, the display one.
#[derive(Clone, Copy, Debug, PartialEq, Eq)]
pub enum Reader {
    Program,
    Display,
}

/// After how many bytes of input how many bytes of output are settled.
#[derive(Clone, Copy, Debug, PartialEq, Eq)]
pub struct Settled {
    pub input: usize,
    pub output: usize,
}

#[derive(Default)]
pub struct FileAnswer {
    pub output: Vec<u8>,
    pub network: Network,
    /// The queries in order with their answers.
    pub asked: Vec<(Query, Answer)>,
    /// One entry a query, as it is read.
    pub settled: Vec<Settled>,
    pub file_refusal: Option<Refusal>,
    /// Where the input settles the file refusal; `None` if only its end does.
    pub refused_at: Option<usize>,
}

pub fn answer_file(file: &[u8], reader: Reader, fault: Option<Fault>) -> FileAnswer {
    answer_file_up_to(file, reader, fault, LAST_LINE)
}

/// As `answer_file`, with another number in the place of line 4,294,967,295, so
/// that its rule can be tested.
pub fn answer_file_up_to(file: &[u8], reader: Reader, fault: Option<Fault>, last_line: u32) -> FileAnswer {
    let mut reading = Reading { reader, fault, last_line, size: None, answer: FileAnswer::default() };
    if let Err(refusal) = reading.whole(file) {
        reading.answer.output.extend(refusal_line(refusal).bytes());
        reading.answer.file_refusal = Some(refusal);
    }
    reading.answer
}

struct Reading {
    reader: Reader,
    fault: Option<Fault>,
    last_line: u32,
    /// Node and arc count of frame 01, once it was read.
    size: Option<(usize, usize)>,
    answer: FileAnswer,
}

impl Reading {
    fn whole(&mut self, file: &[u8]) -> Result<(), Refusal> {
        let mut at = 0;
        let mut number = 0u32;
        while at < file.len() {
            number += 1;
            let length = file[at..].iter().position(|&byte| byte == b'\n');
            let end = length.map_or(file.len(), |length| at + length);
            let next = length.map_or(file.len(), |length| at + length + 1);
            let whole = length.is_some();
            self.answer.refused_at = settles_at(&file[at..end], whole).map(|bytes| at + bytes);
            self.line(&file[at..end], whole, number)?;
            if self.answer.asked.len() > self.answer.settled.len() {
                self.answer.settled.push(Settled { input: next, output: self.answer.output.len() });
            }
            at = next;
        }
        self.answer.refused_at = None;
        if self.answer.asked.is_empty() {
            return Err(Refusal { number: 11, place: number + 1 });
        }
        Ok(())
    }

    fn line(&mut self, line: &[u8], whole: bool, number: u32) -> Result<(), Refusal> {
        let not_sound = Refusal { number: 10, place: number };
        let misplaced = Refusal { number: 11, place: number };
        if number == self.last_line {
            return Err(misplaced);
        }
        if !whole {
            return Err(not_sound);
        }
        let frame = read_frame(line).ok_or(not_sound)?;
        let Some((nodes, arcs)) = self.size else {
            return self.first(frame, misplaced);
        };
        let network = &mut self.answer.network;
        let owed = arcs - network.arcs.len();
        let potentials_owed = nodes - network.nodes.len();
        match frame {
            Frame::OneWay(arc) if owed >= 1 => network.arcs.push(arc),
            Frame::TwoWay(arc) if owed >= 2 => {
                network.arcs.push(arc);
                network.arcs.push(Arc { tail: arc.head, head: arc.tail, weight: arc.weight });
            }
            Frame::Potentials { node, values } if owed == 0 && potentials_owed > 0 && node == network.nodes.len() => {
                network.nodes.push(values);
            }
            Frame::Query(query) if owed == 0 && potentials_owed == 0 && self.takes_another() => self.ask(query),
            _ => return Err(misplaced),
        }
        Ok(())
    }

    fn first(&mut self, frame: Frame, misplaced: Refusal) -> Result<(), Refusal> {
        let Frame::Size { nodes, arcs } = frame else {
            return Err(misplaced);
        };
        match model::size_refusal(nodes, arcs) {
            Some(refusal) => Err(refusal),
            None => {
                self.size = Some((nodes, arcs));
                Ok(())
            }
        }
    }

    fn takes_another(&self) -> bool {
        self.reader == Reader::Program || self.answer.asked.is_empty()
    }

    fn ask(&mut self, query: Query) {
        let answer = model::answer(&self.answer.network, &query, self.fault).answer;
        self.answer.output.extend(answer_lines(&answer).bytes());
        self.answer.asked.push((query, answer));
    }
}

/// How many bytes of a line settle its verdict: all with the line feed, or 272
/// digits, or (in a last line without line feed) none before the input ends.
fn settles_at(line: &[u8], whole: bool) -> Option<usize> {
    let digits = line.iter().take_while(|&&byte| digit_value(byte).is_some()).count();
    if digits > MOST_DIGITS {
        Some(MOST_DIGITS + 1)
    } else if whole {
        Some(line.len() + 1)
    } else {
        None
    }
}

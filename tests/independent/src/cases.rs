//! The cases P1 to P12 (docs/RULES.md, "Cases") as files, and what the program `cases`
//! should print of them, and of some of them at caps: the answer in words, the path, the five work lists, and the answer
//! lines. What it should print of indexes after that stands in `index_cases.rs`.

use crate::check;
use crate::frames::{self, Reader};
use crate::index_cases;
use crate::model::{self, Answer, Fault, Figures, Network, Outcome, Query, Search};

/// District D5 without a query, as docs/RULES.md, "District D5", prints it.
pub const D5: &str = "0100050005
020000000100000001
020001000200000001
020002000300000001
020000000400000002
020004000300000002
0300000000000000000000
0300010000000000000000
0300020000000000000000
0300030000000000000000
0300040000000000000000
";

/// The digits of both potentials of a node, where they are zero.
pub const ZERO: &str = "0000000000000000";

/// Two nodes and one arc from 0 to 1: the arc's weight, the potentials of each node, and the query.
pub fn pair(weight: &str, first: &str, second: &str, query: &str) -> String {
    format!("0100020001\n0200000001{weight}\n030000{first}\n030001{second}\n{query}\n")
}

/// P1 to P12 by name.
pub fn files() -> [(&'static str, String); 12] {
    let d5 = |query: &str| format!("{D5}{query}\n");
    let low = "85FD424085FD4240";
    let there = "0400000001010";
    [
        ("P1", d5("04000000030201")),
        ("P2", d5("0400000003011")),
        ("P3", d5("04000200020201")),
        ("P4", d5("04000300000201")),
        ("P5", pair("00000001", "0000000100000000", ZERO, there)),
        ("P6", pair("00000001", "0000000200000000", ZERO, there)),
        ("P7", pair("000F4240", ZERO, ZERO, there)),
        ("P8", pair("000F4241", ZERO, ZERO, there)),
        ("P9", pair("00000001", low, low, there)),
        ("P10", pair("00000001", "85FD423F00000000", ZERO, there)),
        ("P11", format!("0100010000\n030000{ZERO}\n0400000000010\n")),
        ("P12", pair("00000001", ZERO, ZERO, "040002000100")),
    ]
}

// ---------------------------------------------------------------- what is printed

/// The entries of each lent list, and what each holds before the query.
const LENT: usize = 8;
const OLD: i64 = 77;

/// The work lists, in the order of the columns of `check::rows`.
const LISTS: [&str; 5] = ["start labels", "start neighbours", "end labels", "end neighbours", "states"];

/// Those of P1 to P12 that are asked at a cap too, by their place in the list, and the caps.
const AT_CAPS: [(usize, u16); 11] =
    [(0, 0), (0, 1), (0, 2), (0, 3), (0, 4), (0, 5), (0, 6), (1, 4), (2, 0), (3, 0), (3, 1)];

/// The text of P1 to P12, in this order, then of those at caps, and then of indexes.
pub fn text(fault: Option<Fault>) -> String {
    let files = files();
    let plain = files.iter().map(|(name, file)| case(name, file, None, fault));
    let capped = AT_CAPS.iter().map(|&(at, cap)| {
        let (name, file) = &files[at];
        case(&format!("{name}, cap {cap}"), file, Some(cap), fault)
    });
    plain.chain(capped).chain([index_cases::builds(fault)]).collect()
}

fn case(name: &str, file: &str, cap: Option<u16>, fault: Option<Fault>) -> String {
    let read = frames::answer_file(file.as_bytes(), Reader::Program, fault);
    let (query, _) = &read.asked[0];
    asked(name, &read.network, &query.at(cap), fault)
}

/// What is printed of a query in a network that has at most as many nodes as the lent lists entries.
pub fn asked(name: &str, network: &Network, query: &Query, fault: Option<Fault>) -> String {
    let outcome = model::answer(network, query, fault);
    let path: Vec<i64> = match &outcome.answer {
        Answer::Route { path, .. } | Answer::Provisional { path, .. } => path.iter().map(|&node| node as i64).collect(),
        _ => Vec::new(),
    };
    let rows = outcome.tables.as_ref().map_or(Vec::new(), check::rows);
    let mut text = format!("{name}: {}\n{}", words(&outcome), list("path", &path));
    for (at, title) in LISTS.iter().enumerate() {
        let entries: Vec<i64> = rows.iter().map(|row| row[at]).collect();
        text += &list(title, &entries);
    }
    text + &frames::answer_lines(&outcome.answer)
}

/// The entries that a query leaves, and after a bar the old ones beyond them.
fn list(title: &str, written: &[i64]) -> String {
    let mut entries = vec![OLD; LENT];
    entries[..written.len()].copy_from_slice(written);
    row(title, &entries, written.len())
}

/// The entries of a list, with a bar before the one at this place.
pub fn row(title: &str, entries: &[i64], bar: usize) -> String {
    let mut text = format!("  {title}:");
    for (at, entry) in entries.iter().enumerate() {
        let bar = if at == bar { " |" } else { "" };
        text += &format!("{bar} {entry}");
    }
    text + "\n"
}

/// The answer, and the figures of its search, whether its lines have them or not. Length and excess of a provisional one
/// stand in its answer line.
fn words(outcome: &Outcome) -> String {
    let said = match &outcome.answer {
        Answer::Refused(refusal) => return format!("refused, {}", frames::refusal_line(*refusal).trim_end()),
        Answer::Route { length, path, .. } => format!("route, length {length}, path nodes {}", path.len()),
        Answer::NoRoute { .. } => "no route".into(),
        Answer::Provisional { .. } => "provisional".into(),
        Answer::Undecided { .. } => "undecided".into(),
    };
    let figures = outcome.tables.as_ref().map(Search::figures).unwrap_or_default();
    format!("{said}, {}", figures_words(&figures))
}

fn figures_words(figures: &Figures) -> String {
    let Figures { turns, opened_by_start, opened_by_end, rejected } = figures;
    format!("turns {turns}, opened by start side {opened_by_start}, by end side {opened_by_end}, rejected {rejected}")
}

//! What a cap buys: the answers of `routeline` to the benchmark's trips at several caps, beside those without one.
//! Nothing is timed.

use crate::fast;
use crate::road::{Road, Trips};
use crate::{over_sizes, table, thousands, Flags, CAPS, SEED};
use independent::model::Query;
use independent::program;
use std::path::Path;

/// A cap is the nodes divided by one of these.
const PARTS: [usize; 4] = [16, 8, 4, 2];

/// So many that a file is answered soon.
const TRIPS_A_FILE: usize = 25;

/// What the answers to all trips of a file at one cap came to.
#[derive(Default)]
struct Tally {
    decided: usize,
    undecided: usize,
    /// Of each provisional answer, as shares of the length shown: the excess, and what it is really too long.
    provisional: Vec<[f64; 2]>,
}

/// A file's trips, and what they came to at each cap.
struct Asked {
    nodes: usize,
    potentials: &'static str,
    trips: &'static str,
    queries: usize,
    tallies: Vec<Tally>,
}

pub fn run(Flags { routeline, queries, out, .. }: Flags) -> Result<(), String> {
    let rows = over_sizes("asking", |road, potentials, trips| ask(&routeline, road, potentials, trips, queries))?;
    crate::tell(report(&rows, queries), out, CAPS)
}

/// Asks each trip without a cap and then at each cap.
fn ask(routeline: &Path, road: &Road, potentials: &'static str, trips: Trips, queries: usize) -> Result<Asked, String> {
    let nodes = road.network.nodes.len();
    let mut tallies: Vec<Tally> = PARTS.iter().map(|_| Tally::default()).collect();
    for some in road.trips(trips, queries, SEED).chunks(TRIPS_A_FILE) {
        let answers = answers(routeline, road, some).map_err(|what| format!("{nodes} nodes: {what}"))?;
        for answers in answers.chunks(1 + PARTS.len()) {
            for (answer, tally) in answers[1..].iter().zip(&mut tallies) {
                count(tally, &answers[0], answer)?;
            }
        }
    }
    Ok(Asked { nodes, potentials, trips: trips.name(), queries, tallies })
}

/// The first line of each answer to these trips, each without a cap and then at each cap.
fn answers(routeline: &Path, road: &Road, trips: &[Query]) -> Result<Vec<String>, String> {
    let capped = PARTS.map(|part| Some((road.network.nodes.len() / part) as u16));
    let caps: Vec<Option<u16>> = std::iter::once(None).chain(capped).collect();
    let asked: Vec<Query> = trips.iter().flat_map(|trip| caps.iter().map(|&cap| trip.at(cap))).collect();
    let file = road.file(&asked);
    let printed = program::run(routeline, &file).map_err(|(what, _)| what)?;
    if printed != fast::answer_file(&file).0 {
        return Err("routeline and the fast engine differ".into());
    }
    let lines = printed.split(|&byte| byte == b'\n').filter(|line| !line.is_empty() && !line.starts_with(b"82"));
    let answers: Vec<String> = lines.map(|line| String::from_utf8_lossy(line).into_owned()).collect();
    if answers.len() != asked.len() {
        return Err(format!("{} answers to {} queries", answers.len(), asked.len()));
    }
    Ok(answers)
}

/// One answer at a cap, beside the answer without one.
fn count(tally: &mut Tally, whole: &str, answer: &str) -> Result<(), String> {
    let field = |line: &str, from: usize| u32::from_str_radix(&line[from..from + 8], 16).map(f64::from).unwrap_or(0.0);
    match &answer[..2] {
        "81" | "80" if answer == whole => tally.decided += 1,
        "85" => tally.undecided += 1,
        "84" if whole.starts_with("81") => {
            let (length, excess, shortest) = (field(answer, 2), field(answer, 10), field(whole, 2));
            if length < shortest || length > shortest + excess {
                return Err(format!("{answer} where the answer is {whole}"));
            }
            tally.provisional.push([excess / length, (length - shortest) / length]);
        }
        _ => return Err(format!("{answer} where the answer is {whole}")),
    }
    Ok(())
}

// ---------------------------------------------------------------- the tables

fn report(rows: &[Asked], queries: usize) -> String {
    let mut text = format!(
        "## Answers at several caps\n\nThe districts of the tables that follow these, {queries} trips a row of the same kinds, pattern 01, each asked without a cap \
         and at caps of a sixteenth, an eighth, a quarter and half of the nodes. The answers are `routeline`'s own, and every \
         line was compared with the fast engine's: no difference.\n\n\
         Answers by kind, in percent, rounded: decided (a route or no route, as without a cap) / provisional / undecided.\n\n"
    );
    text += &by_cap(rows, |tally, queries| {
        let share = |count: usize| share(count, queries);
        format!("{} / {} / {}", share(tally.decided), share(tally.provisional.len()), share(tally.undecided))
    });
    text += "The excess of the provisional answers, the most by which the shortest route can be shorter, in percent of the \
             length shown: mean, largest.\n\n";
    text += &by_cap(rows, |tally, _| mean_and_largest(tally, 0));
    text +=
        "By how much the provisional routes are in fact too long, in percent of the length shown: mean, largest.\n\n";
    text += &by_cap(rows, |tally, _| mean_and_largest(tally, 1));
    text.trim_end().to_string() + "\n"
}

/// A share in percent, rounded, but 0 stands only for none and 100 only for all.
fn share(count: usize, of: usize) -> String {
    match (count * 200 + of) / (of * 2) {
        0 if count > 0 => "<1".into(),
        100 if count < of => ">99".into(),
        rounded => rounded.to_string(),
    }
}

fn mean_and_largest(tally: &Tally, which: usize) -> String {
    let shares: Vec<f64> = tally.provisional.iter().map(|shares| shares[which] * 100.0).collect();
    if shares.is_empty() {
        return "none".into();
    }
    let mean = shares.iter().sum::<f64>() / shares.len() as f64;
    format!("{mean:.1}, {:.1}", shares.iter().copied().fold(0.0, f64::max))
}

/// A row a file, a column a cap.
fn by_cap(rows: &[Asked], cell: impl Fn(&Tally, usize) -> String) -> String {
    let caps = PARTS.map(|part| format!("cap: nodes / {part}"));
    let head: Vec<&str> = ["nodes", "potentials", "trips"].into_iter().chain(caps.iter().map(String::as_str)).collect();
    let row = |asked: &Asked| {
        let mut row = vec![thousands(asked.nodes), asked.potentials.into(), asked.trips.into()];
        row.extend(asked.tallies.iter().map(|tally| cell(tally, asked.queries)));
        row
    };
    table(&head, rows.iter().map(row).collect())
}

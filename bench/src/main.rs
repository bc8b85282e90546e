//! Measures `routeline` beside a fast independent engine; see README.md.

mod beside;
mod caps;
mod fast;
mod measure;
mod road;

use independent::frames::{self, Reader};
use independent::make;
use independent::model::Query;
use independent::program;
use road::{Road, Trips};
use std::env;
use std::hint::black_box;
use std::path::{Path, PathBuf};
use std::process::ExitCode;

const USAGE: &str = "\
bench run [flags]      measure and print Markdown tables
bench caps [flags]     ask at several caps, measure nothing, and print Markdown tables
bench beside [flags]   measure two programs alternately, and print Markdown tables
bench files [flags]    write the files that are timed, for a profile of the program
  --routeline PATH     the program (default crates/routeline/out/routeline under the repository root)
  --before PATH        for `beside`: the program of an earlier version
  --queries N          queries a file (default 300); where times are taken, more if they make few turns
  --out FILE           write the tables there as well, below the line `<!-- tables -->`, `<!-- caps -->` or `<!-- beside -->`
                       and above the next such line; all other words stay; for `files`: the folder
bench test             compare the fast engine with the independent model
";

const SIZES: [usize; 5] = [128, 256, 512, 1_024, 2_048];
const PER_NODE: usize = 4;
/// The kinds of trips at each size.
const KINDS: usize = 3;
const SEED: u64 = 1;

fn main() -> ExitCode {
    let arguments: Vec<String> = env::args().skip(1).collect();
    let done = match arguments.split_first() {
        Some((command, rest)) if command == "run" => flags(rest).and_then(run),
        Some((command, rest)) if command == "caps" => flags(rest).and_then(caps::run),
        Some((command, rest)) if command == "beside" => flags(rest).and_then(beside::run),
        Some((command, rest)) if command == "files" => flags(rest).and_then(files),
        Some((command, _)) if command == "test" => test(),
        _ => Err(USAGE.into()),
    };
    match done {
        Ok(()) => ExitCode::SUCCESS,
        Err(what) => {
            eprintln!("{what}");
            ExitCode::from(1)
        }
    }
}

/// The repository root: the nearest folder above that holds this package.
fn root() -> PathBuf {
    let here = env::current_dir().unwrap_or_default();
    let found = here.ancestors().find(|folder| folder.join("bench/Cargo.toml").exists());
    found.map(Path::to_path_buf).unwrap_or(here)
}

// ---------------------------------------------------------------- one file

/// About so many turns at least are timed together. Where the trips that are wanted make fewer, there are more trips, and not
/// the same ones over again: a processor learns what it does over and over, and is then up to twice as fast.
const TURNS_A_FILE: u64 = 200_000;

/// Queries at cap 0 in a file.
const QUERIES_AT_0: usize = 10_000;

/// The files that are timed for trips of one kind.
struct Timed {
    /// The smallest file that there is: what a program takes for it is the start of its process.
    start: Vec<u8>,
    /// The network alone.
    alone: Vec<u8>,
    /// The network and a query for each trip.
    all: Vec<u8>,
    asked: Vec<Query>,
    /// How `all` is answered, and what the fast engine tells of it.
    answers: Vec<u8>,
    told: fast::Reading,
}

impl Timed {
    /// At least so many queries.
    fn new(road: &Road, trips: Trips, queries: usize) -> Timed {
        let few = fast::answer_file(&road.file(&road.trips(trips, queries, SEED))).1.turns.max(1);
        let asked = road.trips(trips, queries * TURNS_A_FILE.div_ceil(few) as usize, SEED);
        let all = road.file(&asked);
        let (answers, told) = fast::answer_file(&all);
        let start = Road::new(1, 0, SEED).reading_alone();
        Timed { start, alone: road.reading_alone(), all, asked, answers, told }
    }

    /// The turns of a query, as a mean.
    fn turns(&self) -> f64 {
        self.told.turns as f64 / self.asked.len() as f64
    }

    /// The time of a query, with that for reading the network taken off.
    fn a_query(&self, all: f64, alone: f64) -> f64 {
        (all - alone).max(1e-9) / self.asked.len() as f64
    }
}

/// What was measured of one query file. Times are in seconds of processor time.
struct Measured {
    nodes: usize,
    arcs: usize,
    potentials: &'static str,
    trips: &'static str,
    bytes: usize,
    /// Means over the queries: turns, nodes opened, nodes that the one-sided searches take.
    turns: f64,
    opened: f64,
    dijkstra: f64,
    a_star: f64,
    /// The start of the process of routeline.
    start: f64,
    /// Reading the network alone: routeline, fast engine.
    reading: [f64; 2],
    /// A query, reading taken off: routeline, fast engine, Dijkstra.
    query: [f64; 3],
    /// A query at cap 0, which makes no turn: routeline, fast engine.
    no_turn: [f64; 2],
    memory: Option<u64>,
}

impl Measured {
    /// A query's time by its turns.
    fn turn(&self, which: usize) -> f64 {
        self.query[which] / self.turns
    }

    /// The same without what a query takes that makes no turn.
    fn turn_alone(&self, which: usize) -> f64 {
        (self.query[which] - self.no_turn[which]) / self.turns
    }
}

fn measure_file(
    routeline: &Path,
    road: &Road,
    potentials: &'static str,
    trips: Trips,
    queries: usize,
) -> Result<Measured, String> {
    let timed = Timed::new(road, trips, queries);
    let Timed { asked, told, .. } = &timed;
    let at_0: Vec<Query> = asked.iter().cycle().take(QUERIES_AT_0).map(|trip| trip.at(Some(0))).collect();
    let at_0 = road.file(&at_0);
    let [start, alone] = time_programs([(routeline, &timed.start), (routeline, &timed.alone)])?;
    let [all, all_at_0] = time_programs([(routeline, &timed.all), (routeline, &at_0)])?;
    let [fast_alone, fast_all, fast_at_0] =
        [&timed.alone, &timed.all, &at_0].map(|file| measure::of_call(|| drop(fast::answer_file(file))));
    let (dijkstra, a_star) = one_sided(&told.network, asked, &timed.answers)?;
    let few = road.file(&asked[..asked.len().min(5)]);
    let few_expected = fast::answer_file(&few).0.len();
    Ok(Measured {
        nodes: road.network.nodes.len(),
        arcs: road.network.arcs.len(),
        potentials,
        trips: trips.name(),
        bytes: timed.alone.len(),
        turns: timed.turns(),
        opened: told.opened as f64 / asked.len() as f64,
        dijkstra,
        a_star,
        start,
        reading: [alone, fast_alone],
        query: [timed.a_query(all, alone), timed.a_query(fast_all, fast_alone), time_dijkstra(&told.network, asked)],
        no_turn: [all_at_0 - alone, fast_at_0 - fast_alone].map(|time| time / QUERIES_AT_0 as f64),
        memory: program::most_memory(routeline, &few, few_expected),
    })
}

/// The times that programs take for files, each program with its file. What they print is compared first.
fn time_programs<const N: usize>(runs: [(&Path, &[u8]); N]) -> Result<[f64; N], String> {
    let printed = |(program, file): (&Path, &[u8])| program::run(program, file).map_err(|(what, _)| what);
    for (program, file) in runs {
        if printed((program, file))? != fast::answer_file(file).0 {
            return Err(format!("{} and the fast engine differ", program.display()));
        }
    }
    measure::of_programs(|which| printed(runs[which]).map(drop))
}

/// The time of a query by Dijkstra: the search alone, on a network that is read.
fn time_dijkstra(network: &fast::Network, asked: &[Query]) -> f64 {
    let mut work = fast::Work::default();
    let all = measure::of_call(|| {
        for query in asked {
            black_box(fast::one_sided(network, &mut work, query.start, query.end, false));
        }
    });
    all / asked.len() as f64
}

/// Nodes taken by Dijkstra and by A*, means over the queries; their lengths must be
/// those of the answer lines.
fn one_sided(network: &fast::Network, asked: &[Query], answers: &[u8]) -> Result<(f64, f64), String> {
    let mut work = fast::Work::default();
    let mut taken = [0.0; 2];
    let lines = answers.split(|&byte| byte == b'\n').filter(|line| line.starts_with(b"81") || line.starts_with(b"80"));
    for (query, line) in asked.iter().zip(lines) {
        let shown = line.starts_with(b"81").then(|| String::from_utf8_lossy(&line[2..10]).into_owned());
        for (with_h, total) in [(false, 0), (true, 1)] {
            let (length, nodes) = fast::one_sided(network, &mut work, query.start, query.end, with_h);
            if length.map(|length| format!("{length:08X}")) != shown {
                return Err(format!("one-sided search from {} to {}: another length", query.start, query.end));
            }
            taken[total] += f64::from(nodes);
        }
    }
    let [dijkstra, a_star] = taken.map(|taken| taken / asked.len() as f64);
    Ok((dijkstra, a_star))
}

// ---------------------------------------------------------------- the run

struct Flags {
    routeline: PathBuf,
    before: Option<PathBuf>,
    queries: usize,
    out: Option<PathBuf>,
}

fn flags(arguments: &[String]) -> Result<Flags, String> {
    let mut flags = Flags { routeline: root().join("crates/routeline/out/routeline"), before: None, queries: 300, out: None };
    for pair in arguments.chunks(2) {
        match pair {
            [flag, value] if flag == "--routeline" => flags.routeline = PathBuf::from(value),
            [flag, value] if flag == "--before" => flags.before = Some(PathBuf::from(value)),
            [flag, value] if flag == "--queries" => flags.queries = value.parse().map_err(|_| USAGE)?,
            [flag, value] if flag == "--out" => flags.out = Some(PathBuf::from(value)),
            _ => return Err(USAGE.into()),
        }
    }
    for program in [Some(&flags.routeline), flags.before.as_ref()].into_iter().flatten() {
        if !program.exists() {
            return Err(format!("no program at {}; build it, or give another path", program.display()));
        }
    }
    Ok(flags)
}

/// One row for each district and kind of trips, by the number of nodes: with zero potentials trips anywhere and across, and
/// with potentials that aim trips across.
fn over_sizes<T>(
    doing: &str,
    mut row: impl FnMut(&Road, &'static str, Trips) -> Result<T, String>,
) -> Result<Vec<T>, String> {
    let mut rows = Vec::new();
    for nodes in SIZES {
        eprintln!("{doing} {nodes} nodes");
        let mut road = Road::new(nodes, PER_NODE, SEED);
        rows.push(row(&road, "zero", Trips::Any)?);
        rows.push(row(&road, "zero", Trips::Across)?);
        road.aim_potentials();
        rows.push(row(&road, "landmark", Trips::Across)?);
    }
    Ok(rows)
}

/// One row for each number of arcs at 1,024 nodes: with zero potentials, trips anywhere.
fn over_arcs<T>(
    doing: &str,
    mut row: impl FnMut(&Road, &'static str, Trips) -> Result<T, String>,
) -> Result<Vec<T>, String> {
    let mut rows = Vec::new();
    for per_node in [2, 4, 8] {
        eprintln!("{doing} 1,024 nodes with {per_node} arcs a node");
        rows.push(row(&Road::new(1_024, per_node, SEED), "zero", Trips::Any)?);
    }
    Ok(rows)
}

fn run(Flags { routeline, queries, out, .. }: Flags) -> Result<(), String> {
    let row = |road: &Road, potentials, trips| measure_file(&routeline, road, potentials, trips, queries);
    let by_nodes = over_sizes("measuring", row)?;
    let by_arcs = over_arcs("measuring", row)?;
    tell(report(&by_nodes, &by_arcs, queries), out, TABLES)
}

/// Writes the files that are timed by the number of nodes into a folder: all queries, the network alone, and the smallest file.
fn files(Flags { queries, out, .. }: Flags) -> Result<(), String> {
    let out = out.ok_or("give a folder: --out FOLDER")?;
    let write = |name: &str, bytes: &[u8]| {
        let path = out.join(name);
        std::fs::write(&path, bytes).map_err(|error| format!("{}: {error}", path.display()))
    };
    over_sizes("writing", |road, potentials, trips| {
        let timed = Timed::new(road, trips, queries);
        let name = format!("{}-{potentials}-{}", road.network.nodes.len(), trips.name());
        write("start", &timed.start)?;
        write(&format!("{name}-alone"), &timed.alone)?;
        write(&name, &timed.all)
    })?;
    Ok(())
}

/// Prints the tables, and puts them into a page if one is named.
fn tell(text: String, out: Option<PathBuf>, mark: &str) -> Result<(), String> {
    println!("{text}");
    if let Some(out) = out {
        let page = with_tables(&std::fs::read_to_string(&out).unwrap_or_default(), mark, &text);
        std::fs::write(&out, page).map_err(|error| format!("{}: {error}", out.display()))?;
    }
    Ok(())
}

// ---------------------------------------------------------------- the tables

/// The lines under which tables stand in a page, in this order: of `beside`, of `caps` and of `run`.
const BESIDE: &str = "<!-- beside -->\n";
const CAPS: &str = "<!-- caps -->\n";
const TABLES: &str = "<!-- tables -->\n";
const MARKS: [&str; 3] = [BESIDE, CAPS, TABLES];

/// The page with new tables under a mark, down to the next mark; all else stays as it was.
fn with_tables(page: &str, mark: &str, tables: &str) -> String {
    let later = MARKS.iter().skip_while(|other| **other != mark).skip(1);
    let (words, old) = page.split_once(mark).unwrap_or_else(|| {
        let end = later.clone().filter_map(|other| page.find(other)).min().unwrap_or(page.len());
        page.split_at(end)
    });
    let rest = later.filter_map(|other| old.find(other)).min().map_or("", |at| &old[at..]);
    let gap = if rest.is_empty() { "" } else { "\n" };
    format!("{words}{mark}\n{tables}{gap}{rest}")
}

/// A Markdown table, numbers to the right.
fn table(head: &[&str], rows: Vec<Vec<String>>) -> String {
    let mut text = format!("| {} |\n|{}\n", head.join(" | "), "--:|".repeat(head.len()));
    for row in rows {
        text += &format!("| {} |\n", row.join(" | "));
    }
    text + "\n"
}

fn thousands(number: usize) -> String {
    match number {
        0..=999 => number.to_string(),
        _ => format!("{},{:03}", thousands(number / 1_000), number % 1_000),
    }
}

fn report(by_nodes: &[Measured], by_arcs: &[Measured], queries: usize) -> String {
    let mut text = String::new();
    text += "## What was measured\n\n";
    text += &format!(
        "Road-like districts, {queries} trips a row or as many as make about {} turns, pattern 01. Times are processor time \
         (user and system); the time for reading the network alone (a file with one query, start equal to end) is taken \
         off the queries' time. Both engines read the same bytes and every answer line was compared: no difference. \
         Dijkstra is a plain one-sided search with a heap for the same trips: the search alone, by the fast engine's \
         index, no line read and none written; its lengths were compared too. Trips \"across\" lead from one side of the \
         district to the other; landmark potentials have the four corners as landmarks and aim across.\n\n",
        thousands(TURNS_A_FILE as usize)
    );
    text += "## Time by number of nodes\n\n";
    text += &times(by_nodes);
    text += "## Growth when the nodes double\n\n";
    text += "Factors from one size to the next, for the same kind of file.\n\n";
    text += &growth(by_nodes, KINDS);
    text += "## A turn without what a query takes beside its turns\n\n";
    text += "A query at cap 0 makes no turn: its line is read, its tables are set to the beginning and looked through, and \
             a short line is written. \"Turn alone\" is a turn with that taken off the query.\n\n";
    text += &alone(by_nodes);
    text += TURN_GROWTH;
    text += &turn_growth(by_nodes);
    text += "## Time by number of arcs, nodes fixed\n\n";
    text += &times(by_arcs);
    text += "Factors when the arcs double:\n\n";
    text += &growth(by_arcs, 1);
    text += "## Reading and memory\n\n";
    text += "Four arcs a node. The start of the process is what `routeline` takes for the smallest file, of one node, no arcs and \
             one query; the fast engine has no process to start. The ratio is that of reading less the start.\n\n";
    text += &reading(by_nodes);
    text += "## Nodes opened, per query\n\n";
    text += "Turns are nodes opened and rejected; the one-sided searches count the nodes taken, the end included.\n\n";
    text += &opened(by_nodes);
    text.trim_end().to_string() + "\n"
}

fn times(rows: &[Measured]) -> String {
    let head = [
        "nodes",
        "arcs",
        "potentials",
        "trips",
        "turns a query",
        "routeline us/query",
        "fast us/query",
        "routeline to fast",
        "Dijkstra us/query",
        "routeline to Dijkstra",
        "routeline ns/turn",
        "fast ns/turn",
    ];
    let row = |m: &Measured| {
        let [routeline, fast, dijkstra] = m.query;
        vec![
            thousands(m.nodes),
            thousands(m.arcs),
            m.potentials.to_string(),
            m.trips.to_string(),
            format!("{:.1}", m.turns),
            format!("{:.1}", routeline * 1e6),
            format!("{:.1}", fast * 1e6),
            format!("{:.2}", routeline / fast),
            format!("{:.1}", dijkstra * 1e6),
            format!("{:.2}", routeline / dijkstra),
            format!("{:.0}", m.turn(0) * 1e9),
            format!("{:.0}", m.turn(1) * 1e9),
        ]
    };
    table(&head, rows.iter().map(row).collect())
}

/// Rows `kinds` apart are of the same kind, one size on.
fn growth(rows: &[Measured], kinds: usize) -> String {
    let head = [
        "nodes",
        "arcs",
        "potentials",
        "trips",
        "turns",
        "routeline a query",
        "routeline a turn",
        "fast a query",
        "fast a turn",
    ];
    let row = |(old, new): (&Measured, &Measured)| {
        vec![
            format!("{} to {}", thousands(old.nodes), thousands(new.nodes)),
            format!("{} to {}", thousands(old.arcs), thousands(new.arcs)),
            new.potentials.to_string(),
            new.trips.to_string(),
            format!("{:.2}", new.turns / old.turns),
            format!("{:.2}", new.query[0] / old.query[0]),
            format!("{:.2}", new.turn(0) / old.turn(0)),
            format!("{:.2}", new.query[1] / old.query[1]),
            format!("{:.2}", new.turn(1) / old.turn(1)),
        ]
    };
    table(&head, rows.iter().zip(&rows[kinds..]).map(row).collect())
}

fn alone(rows: &[Measured]) -> String {
    let head = [
        "nodes",
        "potentials",
        "trips",
        "routeline us/query at cap 0",
        "fast us/query at cap 0",
        "routeline ns/turn alone",
        "fast ns/turn alone",
    ];
    let row = |m: &Measured| {
        vec![
            thousands(m.nodes),
            m.potentials.to_string(),
            m.trips.to_string(),
            format!("{:.2}", m.no_turn[0] * 1e6),
            format!("{:.2}", m.no_turn[1] * 1e6),
            format!("{:.0}", m.turn_alone(0) * 1e9),
            format!("{:.0}", m.turn_alone(1) * 1e9),
        ]
    };
    table(&head, rows.iter().map(row).collect())
}

/// What stands above a table of `smallest_and_largest`.
const TURN_GROWTH: &str = "A turn on the largest districts to one on the smallest, 2,048 nodes to 128:\n\n";

/// For each kind of trips, its rows of the smallest districts and of the largest.
fn smallest_and_largest<T>(rows: &[T]) -> impl Iterator<Item = (&T, &T)> {
    rows.iter().zip(&rows[rows.len() - KINDS..])
}

fn turn_growth(rows: &[Measured]) -> String {
    let head = ["potentials", "trips", "routeline", "routeline alone", "fast", "fast alone"];
    let row = |(old, new): (&Measured, &Measured)| {
        vec![
            new.potentials.to_string(),
            new.trips.to_string(),
            format!("{:.2}", new.turn(0) / old.turn(0)),
            format!("{:.2}", new.turn_alone(0) / old.turn_alone(0)),
            format!("{:.2}", new.turn(1) / old.turn(1)),
            format!("{:.2}", new.turn_alone(1) / old.turn_alone(1)),
        ]
    };
    table(&head, smallest_and_largest(rows).map(row).collect())
}

fn reading(rows: &[Measured]) -> String {
    let head = [
        "nodes",
        "potentials",
        "file bytes",
        "routeline ms",
        "of it the start",
        "less the start",
        "fast ms",
        "ratio",
        "routeline ns/byte",
        "fast ns/byte",
        "routeline most memory, KiB",
    ];
    let row = |m: &Measured| {
        let [all, fast] = m.reading;
        let routeline = all - m.start;
        vec![
            thousands(m.nodes),
            m.potentials.to_string(),
            thousands(m.bytes),
            format!("{:.2}", all * 1e3),
            format!("{:.2}", m.start * 1e3),
            format!("{:.2}", routeline * 1e3),
            format!("{:.2}", fast * 1e3),
            format!("{:.1}", routeline / fast),
            format!("{:.1}", routeline * 1e9 / m.bytes as f64),
            format!("{:.1}", fast * 1e9 / m.bytes as f64),
            m.memory.map_or("not known".into(), |memory| thousands(memory as usize)),
        ]
    };
    table(&head, rows.iter().filter(|m| m.trips == "across").map(row).collect())
}

fn opened(rows: &[Measured]) -> String {
    let head =
        ["nodes", "potentials", "trips", "turns", "opened", "Dijkstra", "A*", "opened to Dijkstra", "opened to A*"];
    let row = |m: &Measured| {
        vec![
            thousands(m.nodes),
            m.potentials.to_string(),
            m.trips.to_string(),
            format!("{:.1}", m.turns),
            format!("{:.1}", m.opened),
            format!("{:.1}", m.dijkstra),
            format!("{:.1}", m.a_star),
            format!("{:.2}", m.opened / m.dijkstra),
            format!("{:.2}", m.opened / m.a_star),
        ]
    };
    table(&head, rows.iter().map(row).collect())
}

// ---------------------------------------------------------------- the test

/// The fast engine beside the independent model: made files, damaged ones among
/// them, and the benchmark's own districts with a few queries.
fn test() -> Result<(), String> {
    let mut files = 0;
    let mut compare = |name: String, file: &[u8]| {
        files += 1;
        let slow = frames::answer_file(file, Reader::Program, None).output;
        if fast::answer_file(file).0 == slow {
            Ok(())
        } else {
            Err(format!("{name}: the fast engine and the model differ"))
        }
    };
    for seed in 0..6_000 {
        compare(format!("seed {seed}"), &make::file(seed).bytes)?;
    }
    for (nodes, per_node) in SIZES.into_iter().map(|nodes| (nodes, PER_NODE)).chain([(1_024, 2), (1_024, 8)]) {
        let mut road = Road::new(nodes, per_node, SEED);
        compare(format!("{nodes} nodes, zero"), &road.file(&road.trips(Trips::Any, 10, SEED)))?;
        road.aim_potentials();
        let file = road.file(&road.trips(Trips::Across, 10, SEED));
        compare(format!("{nodes} nodes, landmark"), &file)?;
        if fast::answer_file(&file).0.starts_with(b"FF") {
            return Err(format!("{nodes} nodes: the landmark potentials are refused"));
        }
    }
    println!("bench test: {files} files compared, 0 differences");
    Ok(())
}

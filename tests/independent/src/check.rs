//! The comparison over many seeds: the program and the display entry against the
//! independent answers, and the independent answers against the demands.

use crate::display::{self, Entry};
use crate::frames::{self, FileAnswer, Reader};
use crate::laws;
use crate::make;
use crate::model::{self, Answer, Fault, Half, Network, Query, Refusal, Search, Side, State};
use crate::program;
use crate::random::Random;
use std::fs;
use std::ops::Range;
use std::path::{Path, PathBuf};
use std::sync::atomic::{AtomicBool, AtomicU64, Ordering};
use std::sync::Mutex;
use std::thread;
use std::time::Instant;

/// A sixteenth of the files goes in in small pieces, a sixteenth is looked at live.
const SOME: u64 = 16;

/// A run with faults ends once each of them was seen in this many files.
const ENOUGH: u64 = 3;

pub struct Plan {
    pub seeds: Range<u64>,
    /// `None` compares the model with itself (only of use with a fault).
    pub routeline: Option<PathBuf>,
    pub with_routeline: bool,
    /// The program that calls the display entry; `None` leaves the entry out.
    pub display: Option<PathBuf>,
    pub with_display: bool,
    pub with_live: bool,
    pub faults: Vec<Fault>,
    pub out: PathBuf,
    pub jobs: usize,
}

#[derive(Default)]
struct Counts {
    files: u64,
    queries: u64,
    routes: u64,
    no_routes: u64,
    start_is_end: u64,
    capped: u64,
    provisional: u64,
    undecided: u64,
    refusals: [u64; 12],
    compared_with_program: u64,
    in_pieces: u64,
    live: u64,
    rooms: u64,
    /// In how many files each of the plan's faults was seen.
    seen: Vec<u64>,
    /// The lowest seed whose file shows it.
    first: Vec<Option<u64>>,
}

/// One difference: where, what, and the bytes.
struct Difference {
    seed: u64,
    shape: String,
    what: String,
    file: Vec<u8>,
    expected: Vec<u8>,
    got: Vec<u8>,
}

/// Runs the plan; true if it went as it should (no difference; or, with faults,
/// every fault seen). Seeds are taken in order, and a file that was begun is
/// finished, so the lowest seed that shows a fault does not hang on the threads.
pub fn run(plan: &Plan) -> bool {
    let began = Instant::now();
    let next = AtomicU64::new(plan.seeds.start);
    let stop = AtomicBool::new(false);
    let counts = Mutex::new(Counts {
        seen: vec![0; plan.faults.len()],
        first: vec![None; plan.faults.len()],
        ..Counts::default()
    });
    let found: Mutex<Option<Box<Difference>>> = Mutex::new(None);
    let mut entries = Vec::new();
    for _ in 0..plan.jobs.max(1) {
        match plan.display.as_deref().map(Entry::start).transpose() {
            Ok(entry) => entries.push(entry),
            Err(what) => {
                println!("{what}");
                return false;
            }
        }
    }
    let work = |mut entry: Option<Entry>| loop {
        let seed = next.fetch_add(1, Ordering::SeqCst);
        if seed >= plan.seeds.end || stop.load(Ordering::SeqCst) {
            return;
        }
        if let Err(difference) = one_seed(plan, seed, entry.as_mut(), &counts) {
            stop.store(true, Ordering::SeqCst);
            found.lock().unwrap().get_or_insert(difference);
        }
        if !plan.faults.is_empty() && counts.lock().unwrap().seen.iter().all(|&seen| seen >= ENOUGH) {
            stop.store(true, Ordering::SeqCst);
        }
    };
    thread::scope(|scope| {
        for entry in entries {
            scope.spawn(|| work(entry));
        }
    });
    let counts = counts.into_inner().unwrap();
    let found = found.into_inner().unwrap();
    report(plan, &counts, found.as_deref(), began)
}

fn one_seed(plan: &Plan, seed: u64, entry: Option<&mut Entry>, counts: &Mutex<Counts>) -> Result<(), Box<Difference>> {
    let made = make::file(seed);
    let expected = frames::answer_file(&made.bytes, Reader::Program, None);
    let differs = |what: String, expected: &[u8], got: Vec<u8>| {
        let (shape, file) = (made.shape.clone(), made.bytes.clone());
        Box::new(Difference { seed, shape, what, file, expected: expected.to_vec(), got })
    };
    if !plan.faults.is_empty() {
        return with_faults(plan, seed, &made.bytes, &expected, counts)
            .map_err(|what| differs(what, &expected.output, Vec::new()));
    }
    own_tests(seed, &expected, None).map_err(|what| differs(what, &expected.output, Vec::new()))?;
    let mut runs = [0; 3];
    if let (true, Some(path)) = (plan.with_routeline, &plan.routeline) {
        runs = against_program(plan, path, seed, &made.bytes, &expected)
            .map_err(|(what, got)| differs(what, &expected.output, got))?;
    }
    let mut rooms = 0;
    if let Some(entry) = entry {
        let shown = frames::answer_file(&made.bytes, Reader::Display, None);
        for size in display::rooms(&shown.output) {
            display::compare(entry, &made.bytes, &shown.output, size)
                .map_err(|(what, got)| differs(format!("display: {what}"), &shown.output, got))?;
            rooms += 1;
        }
    }
    let mut counts = counts.lock().unwrap();
    count_file(&mut counts, &expected);
    counts.compared_with_program += runs[0];
    counts.in_pieces += runs[1];
    counts.live += runs[2];
    counts.rooms += rooms;
    Ok(())
}

/// Every accepted query, against the demands; those that differ in their caps alone, against each other; and no answer is a
/// refusal of an index.
pub fn own_tests(seed: u64, expected: &FileAnswer, fault: Option<Fault>) -> Result<(), String> {
    laws::no_index_refused(&expected.output)?;
    let others = make::other_patterns(seed, if expected.network.nodes.len() <= 64 { 3 } else { 1 });
    for (number, (query, answer)) in expected.asked.iter().enumerate() {
        if !matches!(answer, Answer::Refused(_)) {
            laws::test_query(&expected.network, query, &others, fault)
                .map_err(|what| format!("the independent answer to query {} breaks a demand: {what}", number + 1))?;
        }
    }
    along_caps(&expected.asked)
}

/// The answers to the same query, by rising caps and last without one: none takes back what the one before it said.
fn along_caps(asked: &[(Query, Answer)]) -> Result<(), String> {
    let cap = |query: &Query| query.cap.map_or(u32::MAX, u32::from);
    let trip = |query: &Query| (query.start, query.end, query.pattern.clone());
    let mut asked: Vec<&(Query, Answer)> = asked.iter().collect();
    asked.sort_by_cached_key(|(query, _)| (trip(query), cap(query)));
    for pair in asked.windows(2) {
        let ((query, smaller), (other, larger)) = (pair[0], pair[1]);
        if trip(query) == trip(other) {
            laws::takes_nothing_back(smaller, larger)?;
        }
    }
    Ok(())
}

/// How many whole, torn and live runs were compared.
fn against_program(
    plan: &Plan,
    path: &Path,
    seed: u64,
    file: &[u8],
    expected: &FileAnswer,
) -> Result<[u64; 3], (String, Vec<u8>)> {
    let same = |how: &str, got: Vec<u8>| {
        if got == expected.output {
            Ok(())
        } else {
            Err((format!("routeline, {how}: other output"), got))
        }
    };
    let mut runs = [1, 0, 0];
    same("whole file", program::run(path, file)?)?;
    if seed % SOME == 5 && file.len() <= 20_000 {
        let mut random = Random::new(seed);
        same("in small pieces", program::run_in_pieces(path, file, &mut random)?)?;
        runs[1] = 1;
    }
    if plan.with_live && seed % SOME == 9 {
        same("live", program::run_live(path, file, expected)?)?;
        runs[2] = 1;
    }
    Ok(runs)
}

/// Counts for each fault whether this file shows it: the faulty model's answers
/// beside the program's, or beside the model's own without a fault.
fn with_faults(plan: &Plan, seed: u64, file: &[u8], sound: &FileAnswer, counts: &Mutex<Counts>) -> Result<(), String> {
    let reference = match (&plan.routeline, plan.with_routeline) {
        (Some(path), true) => program::run(path, file).map_err(|(what, _)| what)?,
        _ => sound.output.clone(),
    };
    let mut seen = Vec::new();
    for &fault in &plan.faults {
        let faulty = frames::answer_file(file, Reader::Program, Some(fault));
        seen.push(u64::from(faulty.output != reference));
    }
    let mut counts = counts.lock().unwrap();
    count_file(&mut counts, sound);
    for (fault, one) in seen.into_iter().enumerate() {
        if one > 0 {
            counts.first[fault] = Some(counts.first[fault].map_or(seed, |first| first.min(seed)));
        }
        counts.seen[fault] += one;
    }
    Ok(())
}

// ---------------------------------------------------------------- counts and report

fn count_file(counts: &mut Counts, expected: &FileAnswer) {
    counts.files += 1;
    if let Some(Refusal { number, .. }) = expected.file_refusal {
        counts.refusals[number as usize] += 1;
    }
    for (query, answer) in &expected.asked {
        count_query(counts, query, answer);
    }
}

fn count_query(counts: &mut Counts, query: &Query, answer: &Answer) {
    counts.queries += 1;
    counts.capped += u64::from(query.cap.is_some());
    match answer {
        Answer::Route { .. } => {
            counts.routes += 1;
            counts.start_is_end += u64::from(query.start == query.end);
        }
        Answer::NoRoute { .. } => counts.no_routes += 1,
        Answer::Provisional { .. } => counts.provisional += 1,
        Answer::Undecided { .. } => counts.undecided += 1,
        Answer::Refused(refusal) => counts.refusals[refusal.number as usize] += 1,
    }
}

fn report(plan: &Plan, counts: &Counts, found: Option<&Difference>, began: Instant) -> bool {
    let Counts { files, queries, routes, no_routes, start_is_end, capped, provisional, undecided, .. } = counts;
    println!("seeds {}..{}, {:.1} s", plan.seeds.start, plan.seeds.end, began.elapsed().as_secs_f64());
    println!("{files} files, {queries} queries: {routes} routes ({start_is_end} with start equal to end), {no_routes} no routes");
    println!("{capped} of the queries with a cap: {provisional} provisional, {undecided} undecided");
    let by_number = (1..=11).filter(|&number| counts.refusals[number] > 0);
    let refusals: Vec<String> = by_number.map(|number| format!("{number}: {}", counts.refusals[number])).collect();
    println!("refusals by number: {}", refusals.join(", "));
    println!(
        "routeline: {} files whole, {} in small pieces, {} live; display: {} rooms",
        counts.compared_with_program, counts.in_pieces, counts.live, counts.rooms
    );
    for ((fault, seen), first) in plan.faults.iter().zip(&counts.seen).zip(&counts.first) {
        let first = first.map_or(String::new(), |seed| format!(", first at seed {seed}"));
        println!("fault {}: seen in {seen} of {files} files{first}", fault.name());
    }
    if let Some(difference) = found {
        leave_behind(plan, difference);
    }
    let differences = u64::from(found.is_some());
    if plan.faults.is_empty() {
        println!("independent: {files} files, {queries} queries compared, {differences} differences");
        return found.is_none();
    }
    let missed = counts.seen.iter().filter(|&&seen| seen == 0).count();
    println!("independent: {} faults, {missed} not found, {differences} failed runs", plan.faults.len());
    missed == 0 && found.is_none()
}

/// Leaves the file with both answers in the output folder and says how to repeat it.
fn leave_behind(plan: &Plan, difference: &Difference) {
    let Difference { seed, shape, what, .. } = difference;
    println!("DIFFERENCE at seed {seed} ({shape}): {what}");
    let name = |kind: &str| plan.out.join(format!("seed-{seed}.{kind}"));
    let write = |kind: &str, bytes: &[u8]| fs::write(name(kind), bytes);
    let left = fs::create_dir_all(&plan.out)
        .and_then(|()| write("frames", &difference.file))
        .and_then(|()| write("expected", &difference.expected))
        .and_then(|()| write("got", &difference.got));
    match left {
        Ok(()) => println!("left behind: {} (.expected, .got)", name("frames").display()),
        Err(error) => println!("the file could not be left behind: {error}"),
    }
    let display = plan.display.as_ref().map_or(String::new(), |path| format!(" --display {}", path.display()));
    let routeline = plan.routeline.as_ref().map_or(" --self".into(), |path| format!(" --routeline {}", path.display()));
    println!(
        "to repeat: cargo run --release --manifest-path tests/independent/Cargo.toml -- check{routeline}{display} --seeds {seed}..{}",
        seed + 1
    );
}

/// The nodes and arcs of a file's network, for a look at a file that was left behind.
pub fn describe(network: &Network) -> String {
    let mut text = String::new();
    for (node, values) in network.nodes.iter().enumerate() {
        text += &format!("node {node}: h {}, k {}\n", values.h, values.k);
    }
    for (number, arc) in network.arcs.iter().enumerate() {
        text += &format!("arc {number}: {} to {}, weight {}\n", arc.tail, arc.head, arc.weight);
    }
    text
}

/// The work lists at the end of a query (docs/RULES.md, "The end of a search"), or where its cap stopped it, a line a
/// node: the node and its row.
pub fn tables(network: &Network, query: &Query) -> String {
    let cap = query.cap.map_or(String::new(), |cap| format!(" in at most {cap} turns"));
    let mut text = format!("query from {} to {}{cap}\n", query.start, query.end);
    let outcome = model::answer(network, query, None);
    let Some(tables) = outcome.tables else {
        return text + "refused: the lists are untouched\n";
    };
    for (node, [label, neighbour, end_label, end_neighbour, state]) in rows(&tables).into_iter().enumerate() {
        text += &format!("{node} {label} {neighbour} {end_label} {end_neighbour} {state}\n");
    }
    text
}

/// A row a node, with the rules' numbers for what is missing and for the states:
/// start side's label and neighbour, end side's label and neighbour, state.
pub fn rows(search: &Search) -> Vec<[i64; 5]> {
    let label = |half: &Half, node: usize| half.labels[node].unwrap_or(4_294_967_295);
    let neighbour = |half: &Half, node: usize| half.neighbours[node].map_or(65_535, |near| near as i64);
    let row = |node: usize| {
        let (start, end) = (&search.start_half, &search.end_half);
        let state = match search.states[node] {
            State::Undecided => 0,
            State::Opened(Side::Start) => 1,
            State::Rejected(Side::Start) => 2,
            State::Opened(Side::End) => 3,
            State::Rejected(Side::End) => 4,
        };
        [label(start, node), neighbour(start, node), label(end, node), neighbour(end, node), state]
    };
    (0..search.states.len()).map(row).collect()
}

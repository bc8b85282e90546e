//! Tests of the independent program itself: the cases (docs/RULES.md, "Cases"), capped queries, indexes, the order of
//! lines, the demands over made files, and that the tests notice faults.

use crate::cases::{self, D5, ZERO};
use crate::check;
use crate::display::{self, Shown};
use crate::frames::{self, answer_file, answer_file_up_to, Reader};
use crate::index_cases;
use crate::laws;
use crate::make;
use crate::model::{self, Answer, Arc, Fault, Figures, Network, Node, Query, MOST_NODES, TOP_WEIGHT};

type Passed = Result<(), String>;

type Test = (&'static str, fn() -> Passed);

const TESTS: [Test; 19] = [
    ("the cases P1 to P12", p_cases),
    ("the cases that are run only", run_only_cases),
    ("district D5 at each cap", capped_cases),
    ("indexes by hand", indexes_by_hand),
    ("every kind of edit is drawn", kinds_of_edits),
    ("sound frames and others", sound_frames),
    ("the order of lines", order_of_lines),
    ("line 4,294,967,295", last_line),
    ("the display's one query", one_query),
    ("rooms are judged rightly", rooms_judged),
    ("the largest shortest length", largest_length),
    ("made files: the same for the same seed, and read back", made_files),
    ("the demands over made files", demands),
    ("what is promised at every cap", every_cap),
    ("capped queries at every size", caps_at_every_size),
    ("what a larger cap takes back is noticed", taken_back),
    ("every fault is noticed", faults_noticed),
    ("every fault of an index is noticed", index_faults_noticed),
    ("19 and 20 in a file's answer are noticed", index_refusals_noticed),
];

pub fn run() -> bool {
    let mut failed = 0;
    for (name, test) in TESTS {
        match test() {
            Ok(()) => println!("passed: {name}"),
            Err(what) => {
                failed += 1;
                println!("FAILED: {name}: {what}");
            }
        }
    }
    println!("selftest: {} passed, {failed} failed", TESTS.len() - failed);
    failed == 0
}

fn same(name: &str, got: &str, expected: &str) -> Passed {
    if got == expected {
        return Ok(());
    }
    Err(format!("{name}: got {got:?}, expected {expected:?}"))
}

fn program(file: &str) -> String {
    String::from_utf8_lossy(&answer_file(file.as_bytes(), Reader::Program, None).output).into_owned()
}

fn shown(file: &str) -> String {
    String::from_utf8_lossy(&answer_file(file.as_bytes(), Reader::Display, None).output).into_owned()
}

// ---------------------------------------------------------------- the cases of the rules

/// What a pair answers where it passes, with the length's digits.
fn pair_route(length: &str) -> String {
    format!("81{length}00020002000100000001\n8200000001\n")
}

fn p_cases() -> Passed {
    let one = pair_route("00000001");
    let million = pair_route("000F4240");
    let expected = [
        "810000000300040005000200010002\n820000000100020003\n",
        "810000000300040005000000040001\n820000000100020003\n",
        "810000000000010000000000000000\n820002\n",
        "800001000100000000\n",
        &one,
        "FF0900000000\n",
        &million,
        "FF0700000000\n",
        &one,
        "FF0800000000\n",
        "810000000000010000000000000000\n820000\n",
        "FF0400000000\n",
    ];
    for ((name, file), expected) in cases::files().iter().zip(expected) {
        same(name, &program(file), expected)?;
    }
    let of_k = cases::pair("00000001", "0000000085FD423F", ZERO, "0400000001010");
    same("P10, of k", &program(&of_k), "FF0800000000\n")
}

fn run_only_cases() -> Passed {
    let chain = |nodes: usize| {
        let mut file = format!("01{nodes:04X}0000\n");
        for node in 0..nodes {
            file += &format!("03{node:04X}{ZERO}\n");
        }
        file + "0400000001010\n"
    };
    same("2,048 nodes", &program(&chain(2_048)), "800001000100000000\n")?;
    same("2,049 nodes", &program(&chain(2_049)), "FF0100000000\n")?;
    let entries = |count: usize| format!("{D5}0400000003{count:02X}{}\n", "0".repeat(count));
    same("64 entries", &program(&entries(64))[..2], "81")?;
    same("65 entries", &program(&entries(65)), "FF0500000000\n")?;
    same("255 entries", &program(&entries(255)), "FF0500000000\n")?;
    same("digit a", &program(&D5.replace("020000000400000002", "02000000040000000a")), "FF0A00000005\n")
}

/// A query of D5 at a cap, with the pattern 01.
fn capped(start: u32, end: u32, cap: u16) -> String {
    format!("07{start:04X}{end:04X}{cap:04X}0201\n")
}

fn capped_cases() -> Passed {
    let route = "810000000300040005000200010002\n820000000100020003\n";
    let expected = [
        (0, 3, 0, "850000\n"),
        (0, 3, 1, "850001\n"),
        (0, 3, 2, "840000000400000003\n82000000040003\n"),
        (0, 3, 3, "840000000300000001\n820000000100020003\n"),
        (0, 3, 4, "840000000300000001\n820000000100020003\n"),
        (0, 3, 5, route),
        (0, 3, 6, route),
        (0, 3, 65_535, route),
        (3, 0, 0, "850000\n"),
        (3, 0, 1, "800001000100000000\n"),
        (2, 2, 0, "810000000000010000000000000000\n820002\n"),
        (0, 5, 0, "FF0400000000\n"),
        (5, 0, 5, "FF0400000000\n"),
    ];
    let mut all = (D5.to_string(), String::new());
    for (start, end, cap, lines) in expected {
        let query = capped(start, end, cap);
        same(query.trim_end(), &program(&format!("{D5}{query}")), lines)?;
        same(query.trim_end(), &shown(&format!("{D5}{query}")), lines)?;
        all = (all.0 + &query, all.1 + lines);
    }
    same("all in one file", &program(&all.0), &all.1)?;
    let entries = |count: usize| format!("{D5}07000000030005{count:02X}{}\n", "01".repeat(128).split_at(count).0);
    same("at a cap, 64 entries", &program(&entries(64)), route)?;
    for count in [0, 65, 255] {
        same("at a cap, a bad pattern", &program(&entries(count)), "FF0500000000\n")?;
    }
    same("at a cap, the entry 2", &program(&format!("{D5}0700000003000001{}\n", 2)), "FF0500000000\n")?;
    let inconsistent = cases::pair("00000001", "0000000200000000", ZERO, "07000000010000010");
    same("at a cap, refusal 9", &program(&inconsistent), "FF0900000000\n")
}

// ---------------------------------------------------------------- indexes

/// What is printed of some builds, edits and queries, with the lists worked out on paper.
fn indexes_by_hand() -> Passed {
    let text = index_cases::builds(None) + &index_cases::text(None);
    let by_hand = [
        "index of D5: accepted
  out arcs: 0 3 1 2 4 | 77 77 77
  out begins: 0 2 3 4 4 5 | 77 77
  in arcs: 0 1 2 4 3 | 77 77 77
  in begins: 0 0 1 2 4 5 | 77 77
",
        "index with loops: accepted
  out arcs: 0 3 1 4 2 | 77 77 77
  out begins: 0 2 4 5 | 77 77 77 77
  in arcs: 2 0 1 3 4 | 77 77 77
  in begins: 0 1 5 5 | 77 77 77 77
",
        "edit, first arc: accepted
  tails: 4 1 2 0 4
  heads: 0 2 3 4 3
  weights: 1 1 1 2 2
  out arcs: 3 1 2 0 4 | 77 77 77
  out begins: 0 1 2 3 3 5 | 77 77
  in arcs: 0 1 2 4 3 | 77 77 77
  in begins: 0 1 1 2 4 5 | 77 77
",
        "edit, no such arc: refused, FF1300000005\n",
        "edit, bad head: refused, FF0700000002\n",
        "edit, wrong in begins: refused, FF1400000000\n",
        "edit, wrong index and no such arc: refused, FF1400000000\n",
        "edit, no such arc and bad values: refused, FF1300000005\n",
        "edit, bad arc before all of these: refused, FF0700000002\n",
        "index, bad tail: refused, FF0700000002\n",
        "index, eight nodes: refused, FF0600000000\n",
        "query, in begins one short: refused, FF0600000000\n",
        "query, 20 and 7: refused, FF0700000000\n",
        "query, 20 and 8: refused, FF1400000000\n",
        "query, 8: refused, FF0800000000\n",
        "query: accepted\n",
    ];
    match by_hand.iter().find(|part| !format!("\n{text}").contains(&format!("\n{part}"))) {
        Some(part) => Err(format!("not printed: {part}")),
        None => Ok(()),
    }
}

fn kinds_of_edits() -> Passed {
    let (_, kinds) = index_cases::drawn(None);
    match kinds.iter().find(|(_, count)| *count < 3) {
        Some((kind, count)) => Err(format!("only {count} {kind}")),
        None => Ok(()),
    }
}

// ---------------------------------------------------------------- frames and files

fn sound_frames() -> Passed {
    let long = format!("0400000000FF{}", "F".repeat(255));
    let longest = format!("07FFFFFFFFFFFFFF{}", "F".repeat(255));
    let sound = [
        "0100000000",
        "01FFFFFFFF",
        "02FFFFFFFFFFFFFFFF",
        "050000000000000000",
        &long,
        "040000000000",
        &longest,
        "0700000000000000",
    ];
    same("the longest frame", &longest.len().to_string(), &frames::MOST_DIGITS.to_string())?;
    let unsound = [
        "",
        "0",
        "01",
        "010000000",
        "01000000000",
        "020000000000000000F",
        "0a00000000",
        "8000000000000000 ",
        "800001000100000000",
        "820000",
        "FF0900000000",
        "0600000000010",
        "04000000000",
        "0400000000010F",
        "040000000002F",
        "01000000\r0",
        "01000000\u{0}0",
        "03000000000000000000000",
        "030000000000000000000",
        "00",
        "070000",
        "07000000030201",
        "070000000300020",
        "070000000300020201F",
        "0700000003000202",
        "840000000300000001",
        "850002",
        "0800000003000200",
    ];
    for line in sound {
        frames::read_frame(line.as_bytes()).ok_or(format!("{line} should be sound"))?;
    }
    for line in unsound {
        if frames::read_frame(line.as_bytes()).is_some() {
            return Err(format!("{line:?} should not be sound"));
        }
    }
    for byte in 0..=255u8 {
        let digit = frames::read_frame(&[b"04000000000".as_slice(), b"1", &[byte]].concat()).is_some();
        if digit != b"0123456789ABCDEF".contains(&byte) {
            return Err(format!("byte {byte} as a digit"));
        }
    }
    Ok(())
}

fn order_of_lines() -> Passed {
    let query = "0400000003010\n";
    let d5 = format!("{D5}{query}");
    let route = "810000000300040005000400000001\n820000000100020003\n";
    same("whole", &program(&d5), route)?;
    let files = [
        ("empty input", String::new(), "FF0B00000001\n".to_string()),
        ("empty line", "\n".into(), "FF0A00000001\n".into()),
        ("no 01", query.into(), "FF0B00000001\n".into()),
        ("only 01", "0100050005\n".into(), "FF0B00000002\n".into()),
        ("no query", D5.into(), "FF0B0000000C\n".into()),
        ("line feed missing", d5.trim_end().into(), "FF0A0000000C\n".into()),
        ("bad nodes and arcs", "010000FFFF\n".into(), "FF0100000000\n".into()),
        ("bad arcs", "0108002001\n".into(), "FF0200000000\n".into()),
        ("bad nodes after the line feed only", "0100000000".into(), "FF0A00000001\n".into()),
        ("second 01", format!("0100010000\n0100000000\n{D5}"), "FF0B00000002\n".into()),
        ("05 with one owed", "0100020001\n050000000100000001\n".into(), "FF0B00000002\n".into()),
        ("03 too early", "0100020001\n0300000000000000000000\n".into(), "FF0B00000002\n".into()),
        ("03 of another node", "0100020000\n0300010000000000000000\n".into(), "FF0B00000002\n".into()),
        ("03 too many", "0100010000\n0300000000000000000000\n0300010000000000000000\n".into(), "FF0B00000003\n".into()),
        ("arc too many", D5.replace("\n030000", "\n020000000000000000\n030000"), "FF0B00000007\n".into()),
        ("query too early", D5.replace("0300040000000000000000", "0400000003010"), "FF0B0000000B\n".into()),
        ("after an answer, unsound", format!("{d5}x\n"), format!("{route}FF0A0000000D\n")),
        ("after an answer, misplaced", format!("{d5}0100010000\n"), format!("{route}FF0B0000000D\n")),
        ("after an answer, cut", format!("{d5}04"), format!("{route}FF0A0000000D\n")),
        ("two queries, one refused", format!("{D5}0400050003010\n{query}"), format!("FF0400000000\n{route}")),
        ("272 digits, no line feed", format!("{d5}{}", "0".repeat(272)), format!("{route}FF0A0000000D\n")),
        ("84 in input", format!("{d5}840000000300000001\n"), format!("{route}FF0A0000000D\n")),
        ("85 in input", format!("{D5}850002\n"), "FF0A0000000C\n".into()),
        ("07 before its place", D5.replace("0300040000000000000000", "07000000030005010"), "FF0B0000000B\n".into()),
        ("07 and 04", format!("{D5}07000000030005010\n{query}"), format!("{route}{route}")),
        ("nothing after a file refusal", format!("x\n{d5}"), "FF0A00000001\n".into()),
    ];
    for (name, file, expected) in files {
        same(name, &program(&file), &expected)?;
    }
    Ok(())
}

fn last_line() -> Passed {
    let file = format!("{D5}0400000003010\n0400030003010\n");
    let upto = |file: &str, line: u32| {
        let output = answer_file_up_to(file.as_bytes(), Reader::Program, None, line).output;
        String::from_utf8_lossy(&output).into_owned()
    };
    same("sound", upto(&file, 13).lines().last().unwrap_or(""), "FF0B0000000D")?;
    same("unsound", upto(&file.replace("0400030003010", "x"), 13).lines().last().unwrap_or(""), "FF0B0000000D")?;
    same("cut", upto(file.trim_end(), 13).lines().last().unwrap_or(""), "FF0B0000000D")?;
    same("not reached", upto(&file, 14).lines().last().unwrap_or(""), "820003")
}

fn one_query() -> Passed {
    let one = format!("{D5}0400000003010\n");
    let route = program(&one);
    same("one query", &shown(&one), &route)?;
    same("a second", &shown(&format!("{one}0400000003010\n")), &format!("{route}FF0B0000000D\n"))?;
    same("a second, capped", &shown(&format!("{one}07000000030005010\n")), &format!("{route}FF0B0000000D\n"))?;
    let first_capped = format!("{D5}07000000030000010\n{}", "0400000003010\n");
    same("a second after a capped one", &shown(&first_capped), "850000\nFF0B0000000D\n")?;
    same("a second, refused", &shown(&format!("{one}0400090003010\n")), &format!("{route}FF0B0000000D\n"))?;
    same("a second, unsound", &shown(&format!("{one}0400000003011F\n")), &format!("{route}FF0A0000000D\n"))?;
    let refused = format!("{D5}0400090003010\n");
    same("a refused one", &shown(&refused), "FF0400000000\n")?;
    same("after a refused one", &shown(&format!("{refused}0400000003010\n")), "FF0400000000\nFF0B0000000D\n")?;
    same("none", &shown(D5), "FF0B0000000C\n")
}

/// A room filled rightly passes; each way of filling it wrongly does not.
fn rooms_judged() -> Passed {
    let lines = b"FF0400000000\n";
    let old: Vec<u8> = (0..20).map(|at| display::old_byte(display::GUARD + at)).collect();
    let mut filled = old.clone();
    filled[..lines.len()].copy_from_slice(lines);
    let mut spilt = filled.clone();
    spilt[19] = b'0';
    let mut half = old[..12].to_vec();
    half[0] = b'F';
    let tries = [
        (13, filled.clone(), true),
        (12, filled.clone(), false),
        (13, old.clone(), false),
        (13, spilt, false),
        (0, filled[..12].to_vec(), false),
        (0, old[..12].to_vec(), true),
        (0, half, false),
        (0, Vec::new(), true),
        (1, Vec::new(), false),
    ];
    for (at, (count, room, right)) in tries.into_iter().enumerate() {
        let size = room.len();
        if display::judge(&Shown { count, room }, lines, size).is_ok() != right {
            return Err(format!("room {at} is misjudged"));
        }
    }
    Ok(())
}

// ---------------------------------------------------------------- the search

fn largest_length() -> Passed {
    let arcs = (1..MOST_NODES as u32).map(|head| Arc { tail: head - 1, head, weight: TOP_WEIGHT });
    let network = Network { nodes: vec![Node { h: 0, k: 0 }; MOST_NODES], arcs: arcs.collect() };
    let query = Query::new(0, MOST_NODES as u32 - 1, vec![0, 1]);
    match model::answer(&network, &query, None).answer {
        Answer::Route { length: 2_047_000_000, path, .. } if path.len() == MOST_NODES => Ok(()),
        _ => Err("not 2,047,000,000".into()),
    }
}

fn made_files() -> Passed {
    for seed in 0..300 {
        let made = make::file(seed);
        if made.bytes != make::file(seed).bytes {
            return Err(format!("seed {seed} makes two files"));
        }
        for line in made.bytes.split(|&byte| byte == b'\n') {
            let written = frames::read_frame(line).map(|frame| frames::frame_line(&frame));
            if written.is_some_and(|written| written.trim_end().as_bytes() != line) {
                return Err(format!("seed {seed}: a line is not written as it was read"));
            }
        }
    }
    Ok(())
}

fn demands() -> Passed {
    for seed in 0..3_000 {
        let answer = answer_file(&make::file(seed).bytes, Reader::Program, None);
        check::own_tests(seed, &answer, None).map_err(|what| format!("seed {seed}: {what}"))?;
    }
    Ok(())
}

/// The queries of small files, at every cap from 0 to one turn more than their search takes.
fn every_cap() -> Passed {
    let mut stopped = [0; 2];
    for seed in 0..600 {
        let file = answer_file(&make::file(seed).bytes, Reader::Program, None);
        let small = file.network.nodes.len() <= 40;
        let accepted = file.asked.iter().filter(|(_, answer)| small && !matches!(answer, Answer::Refused(_)));
        for (query, _) in accepted.take(3) {
            let turns = model::answer(&file.network, &query.at(None), None).turns_taken as u16;
            for cap in 0..=turns + 1 {
                let query = query.at(Some(cap));
                laws::test_query(&file.network, &query, &[], None).map_err(|what| format!("seed {seed}: {what}"))?;
                match model::answer(&file.network, &query, None).answer {
                    Answer::Provisional { .. } => stopped[0] += 1,
                    Answer::Undecided { .. } => stopped[1] += 1,
                    _ => {}
                }
            }
        }
    }
    if stopped.contains(&0) {
        return Err(format!("{stopped:?} provisional and undecided"));
    }
    Ok(())
}

/// The most nodes of each size of district.
const SIZES: [usize; 6] = [8, 24, 64, 300, MOST_NODES - 1, MOST_NODES];

/// Among the answered searches at each size are some at cap 0, at cap 1, just before and just at their end.
fn caps_at_every_size() -> Passed {
    let mut met = [[0; 4]; SIZES.len()];
    for seed in make::FIXED_SEEDS.filter(|seed| *seed < 2_000 || seed.is_multiple_of(make::LARGE_EVERY)) {
        let file = answer_file(&make::file(seed).bytes, Reader::Program, None);
        let Some(size) = SIZES.iter().position(|&most| file.network.nodes.len() <= most) else { continue };
        for (query, answer) in &file.asked {
            let Some(cap) = query.cap else { continue };
            if query.start == query.end || matches!(answer, Answer::Refused(_)) {
                continue;
            }
            let turns = model::answer(&file.network, &query.at(None), None).turns_taken as u16;
            for (count, here) in met[size].iter_mut().zip([0, 1, turns - 1, turns]) {
                *count += usize::from(cap == here);
            }
        }
    }
    match met.iter().position(|counts| counts.contains(&0)) {
        Some(size) => Err(format!("up to {} nodes: {:?}", SIZES[size], met[size])),
        None => Ok(()),
    }
}

fn taken_back() -> Passed {
    let provisional = |length, excess| Answer::Provisional { length, excess, path: vec![0, 1] };
    let route = |length| Answer::Route { length, path: vec![0, 1], figures: Figures::default() };
    let no_route = || Answer::NoRoute { figures: Figures::default() };
    let undecided = |turns| Answer::Undecided { turns };
    let pairs = [
        (undecided(1), undecided(2), true),
        (undecided(2), undecided(1), false),
        (undecided(1), provisional(5, 5), true),
        (undecided(1), no_route(), true),
        (undecided(1), route(5), true),
        (provisional(5, 2), provisional(5, 2), true),
        (provisional(5, 2), provisional(4, 1), true),
        (provisional(5, 2), provisional(6, 2), false),
        (provisional(5, 2), provisional(5, 3), false),
        (provisional(5, 2), provisional(2, 0), false),
        (provisional(5, 2), undecided(3), false),
        (provisional(5, 2), no_route(), false),
        (provisional(5, 2), route(3), true),
        (provisional(5, 2), route(2), false),
        (provisional(5, 2), route(6), false),
        (route(5), route(5), true),
        (route(5), route(4), false),
        (route(5), provisional(5, 0), false),
        (no_route(), no_route(), true),
        (no_route(), undecided(9), false),
        (no_route(), route(1), false),
    ];
    for (smaller, larger, right) in pairs {
        if laws::takes_nothing_back(&smaller, &larger).is_ok() != right {
            return Err(format!("{smaller:?} and then {larger:?}"));
        }
    }
    Ok(())
}

/// Faults that break what is promised, by the tests of that alone: stopping at the first meeting breaks demand 2, an
/// excess reckoned without potentials is not honest, and the end of a search within its cap must be seen.
const BREAKING: [Fault; 3] = [Fault::FirstMeeting, Fault::FloorsAlone, Fault::NoStepTwoAtTheCap];

/// Each fault changes the answers to some file, and each that breaks a promise is seen to do so.
fn faults_noticed() -> Passed {
    let mut broken = [false; BREAKING.len()];
    let mut seen = [false; Fault::OF_FILES.len()];
    for seed in 1..1_500 {
        let file = make::file(seed).bytes;
        let sound = answer_file(&file, Reader::Program, None);
        for (fault, broken) in BREAKING.into_iter().zip(&mut broken) {
            *broken = *broken || check::own_tests(seed, &sound, Some(fault)).is_err();
        }
        for (fault, seen) in Fault::OF_FILES.into_iter().zip(&mut seen) {
            *seen = *seen || answer_file(&file, Reader::Program, Some(fault)).output != sound.output;
        }
    }
    if let Some(at) = broken.iter().position(|broken| !broken) {
        return Err(format!("the demands' tests pass {}", BREAKING[at].name()));
    }
    match seen.iter().position(|seen| !seen) {
        Some(at) => Err(format!("{} is not noticed", Fault::OF_FILES[at].name())),
        None => Ok(()),
    }
}

/// Each fault of an index changes what is printed of indexes.
fn index_faults_noticed() -> Passed {
    let sound = index_cases::text(None);
    match Fault::OF_INDEXES.iter().find(|&&fault| index_cases::text(Some(fault)) == sound) {
        Some(fault) => Err(format!("{} is not noticed", fault.name())),
        None => Ok(()),
    }
}

/// The fault by which a file is refused for its index breaks what is promised of files.
fn index_refusals_noticed() -> Passed {
    let lines = [("FF0400000000\nFF1300000000\n", false), ("FF1400000000\n", false), ("820013\nFF0700000014\n", true)];
    for (output, right) in lines {
        if laws::no_index_refused(output.as_bytes()).is_ok() != right {
            return Err(format!("{output:?} is misjudged"));
        }
    }
    let answers =
        |seed: u64| answer_file(&make::file(seed).bytes, Reader::Program, Some(Fault::IndexBeforeArcs)).output;
    match (1..1_500).any(|seed| laws::no_index_refused(&answers(seed)).is_err()) {
        true => Ok(()),
        false => Err("no file shows it".into()),
    }
}

#[cfg(test)]
mod tests {
    #[test]
    fn selftest() {
        assert!(super::run());
    }
}

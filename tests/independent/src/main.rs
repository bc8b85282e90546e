//! Command line of the independent program; see README.md.

use independent::cases;
use independent::check::{self, Plan};
use independent::frames::{self, Reader};
use independent::index_cases;
use independent::make;
use independent::model::Fault;
use independent::selftest;
use std::env;
use std::io::{Read, Write};
use std::ops::Range;
use std::path::{Path, PathBuf};
use std::process::ExitCode;
use std::time::{SystemTime, UNIX_EPOCH};

const USAGE: &str = "\
independent check [flags]     compare routeline (and the display entry) with the independent answers
  --seeds A..B                the seeds (default 0..20000)
  --fresh N                   N fresh seeds, counted from the time
  --routeline PATH            the program (default crates/routeline/out/routeline under the repository root)
  --display PATH              the program made of c/entry.c (default none: the display entry is left out)
  --fault NAME                a deliberate fault in the model, or `all` that show in files; exit code 0 if it is
                              found (README.md lists the names); ends once it was seen in 3 files
  --self                      compare the model with itself instead of with routeline
  --without WHAT              leave out `routeline`, `display` or `live`
  --out DIR                   where a file with a difference is left (default target/independent)
  --jobs N                    files at a time (default 2)
independent selftest          test the independent program itself
independent answer [--display] [--fault NAME] < FILE   print the independent answer lines
independent make SEED         print the file of a seed
independent show < FILE       print a file's network in words
independent tables < FILE     print the work lists after each query
independent cases [--fault NAME]     print P1 to P12, some at caps, with their work lists, and builds, as `cases` should
independent indexes [--fault NAME]   print edits, and queries over indexes, as the program of rattle/ should
";

fn main() -> ExitCode {
    let arguments: Vec<String> = env::args().skip(1).collect();
    let Some((command, rest)) = arguments.split_first() else {
        return usage("no command");
    };
    let done = match command.as_str() {
        "check" => plan(rest).map(|plan| check::run(&plan)),
        "selftest" => Ok(selftest::run()),
        "answer" => answer(rest),
        "make" => make_file(rest),
        "show" => show(),
        "tables" => tables(),
        "cases" => reckoned(rest, cases::text),
        "indexes" => reckoned(rest, index_cases::text),
        _ => Err(format!("no command {command}")),
    };
    match done {
        Ok(true) => ExitCode::SUCCESS,
        Ok(false) => ExitCode::from(1),
        Err(what) => usage(&what),
    }
}

fn usage(what: &str) -> ExitCode {
    eprintln!("{what}\n{USAGE}");
    ExitCode::from(2)
}

/// The repository root: the nearest folder above that holds this package.
fn root() -> PathBuf {
    let here = env::current_dir().unwrap_or_default();
    let found = here.ancestors().find(|folder| folder.join("tests/independent/Cargo.toml").exists());
    found.map(Path::to_path_buf).unwrap_or(here)
}

fn plan(arguments: &[String]) -> Result<Plan, String> {
    let mut plan = Plan {
        seeds: make::FIXED_SEEDS,
        routeline: Some(root().join("crates/routeline/out/routeline")),
        with_routeline: true,
        display: None,
        with_display: true,
        with_live: true,
        faults: Vec::new(),
        out: root().join("target/independent"),
        jobs: 2,
    };
    let mut rest = arguments.iter();
    while let Some(flag) = rest.next() {
        if flag == "--self" {
            plan.routeline = None;
            continue;
        }
        let value = rest.next().ok_or(format!("{flag} needs a value, or is no flag"))?;
        match flag.as_str() {
            "--seeds" => plan.seeds = range(value)?,
            "--fresh" => plan.seeds = fresh(number(value)?),
            "--routeline" => plan.routeline = Some(PathBuf::from(value)),
            "--display" => plan.display = Some(PathBuf::from(value)),
            "--fault" => plan.faults = faults(value)?,
            "--without" => leave_out(&mut plan, value)?,
            "--out" => plan.out = PathBuf::from(value),
            "--jobs" => plan.jobs = number(value)? as usize,
            _ => return Err(format!("no flag {flag}")),
        }
    }
    plan.routeline = plan.routeline.filter(|_| plan.with_routeline);
    plan.display = plan.display.filter(|_| plan.with_display);
    if let Some(path) = &plan.routeline {
        if !path.exists() {
            return Err(format!("no program at {}; build it, or give --routeline or --self", path.display()));
        }
    }
    Ok(plan)
}

fn leave_out(plan: &mut Plan, what: &str) -> Result<(), String> {
    match what {
        "routeline" => plan.with_routeline = false,
        "display" => plan.with_display = false,
        "live" => plan.with_live = false,
        _ => return Err(format!("nothing called {what} to leave out")),
    }
    Ok(())
}

fn number(text: &str) -> Result<u64, String> {
    text.parse().map_err(|_| format!("{text} is no number"))
}

fn range(text: &str) -> Result<Range<u64>, String> {
    let (from, to) = text.split_once("..").ok_or(format!("{text} is no range A..B"))?;
    Ok(number(from)?..number(to)?)
}

fn fresh(count: u64) -> Range<u64> {
    let now = SystemTime::now().duration_since(UNIX_EPOCH).map_or(0, |time| time.as_micros() as u64);
    println!("fresh seeds from {now}");
    now..now + count
}

fn fault(name: &str) -> Result<Fault, String> {
    Fault::named(name).ok_or(format!("no fault {name}"))
}

fn faults(name: &str) -> Result<Vec<Fault>, String> {
    if name == "all" {
        return Ok(Fault::OF_FILES.to_vec());
    }
    Ok(vec![fault(name)?])
}

fn standard_input() -> Result<Vec<u8>, String> {
    let mut file = Vec::new();
    std::io::stdin().read_to_end(&mut file).map_err(|error| error.to_string())?;
    Ok(file)
}

fn print(bytes: &[u8]) -> Result<bool, String> {
    std::io::stdout().write_all(bytes).map_err(|error| error.to_string())?;
    Ok(true)
}

fn answer(arguments: &[String]) -> Result<bool, String> {
    let mut reader = Reader::Program;
    let mut chosen = None;
    let mut rest = arguments.iter();
    while let Some(flag) = rest.next() {
        match flag.as_str() {
            "--display" => reader = Reader::Display,
            "--fault" => chosen = Some(fault(rest.next().ok_or("--fault needs a name")?)?),
            _ => return Err(format!("no flag {flag}")),
        }
    }
    print(&frames::answer_file(&standard_input()?, reader, chosen).output)
}

fn make_file(arguments: &[String]) -> Result<bool, String> {
    let seed = arguments.first().ok_or("make needs a seed")?;
    let made = make::file(number(seed)?);
    eprintln!("{}", made.shape);
    print(&made.bytes)
}

fn show() -> Result<bool, String> {
    let file = frames::answer_file(&standard_input()?, Reader::Program, None);
    print(check::describe(&file.network).as_bytes())
}

fn tables() -> Result<bool, String> {
    let file = frames::answer_file(&standard_input()?, Reader::Program, None);
    for (query, _) in &file.asked {
        print(check::tables(&file.network, query).as_bytes())?;
    }
    Ok(true)
}

/// Prints what a program should print, with a fault if one is named.
fn reckoned(arguments: &[String], text: fn(Option<Fault>) -> String) -> Result<bool, String> {
    let chosen = match arguments {
        [] => None,
        [flag, name] if flag == "--fault" => Some(fault(name)?),
        _ => return Err("there is no flag but --fault NAME".into()),
    };
    print(text(chosen).as_bytes())
}

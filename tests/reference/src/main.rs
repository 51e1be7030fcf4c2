//! The command line of the reference.

use reference::counterexample::shown_fault;
use reference::desk_sessions;
use reference::expression;
use reference::generate::{self, Case, Kind};
use reference::program;
use reference::sheet::read_trace;
use reference::state::{write_state, Call};
use std::fs;
use std::io::{self, Write};
use std::path::Path;
use std::process::ExitCode;

const USAGE: &str = "usage:
  reference monitor DIR
  reference check DIR
  reference why DIR
  reference summary DIR
  reference accepts DIR SHEET
  reference write DIR
  reference nodes DIR
  reference judge FILE
  reference generate trace|outline|counterexample|state|policies|expression|lean|desk SEED COUNT DIR
  reference expect trace|outline|counterexample|summary|state|policies|expression|lean|desk DIR COUNT
  reference borders
  reference lean-borders
  reference writings
  reference stops DIR COUNT
  reference expression-borders
  reference desk-borders
  reference desk DIR
";

fn main() -> ExitCode {
    let words: Vec<String> = std::env::args().skip(1).collect();
    let words: Vec<&str> = words.iter().map(String::as_str).collect();
    match run(&words) {
        Some(Ok(text)) => print(&text),
        Some(Err(error)) => fail(&format!("{error}\n")),
        None => fail(USAGE),
    }
}

fn print(text: &str) -> ExitCode {
    match io::stdout().write_all(text.as_bytes()) {
        Ok(()) => ExitCode::SUCCESS,
        Err(_) => ExitCode::FAILURE,
    }
}

fn fail(text: &str) -> ExitCode {
    eprint!("{text}");
    ExitCode::FAILURE
}

/// The text to print; none for a wrong command line.
fn run(words: &[&str]) -> Option<io::Result<String>> {
    match words {
        ["monitor", dir] => Some(Ok(run_sheets(Kind::Trace, dir, "policies.txt", "trace.txt"))),
        ["check", dir] => Some(Ok(run_sheets(Kind::Outline, dir, "policies.txt", "outline.txt"))),
        ["why", dir] => {
            Some(Ok(program::why(&read(dir, "policies.txt"), &read(dir, "outline.txt"))))
        }
        ["summary", dir] => {
            Some(Ok(program::summarized(&read(dir, "policies.txt"), &read(dir, "outline.txt"))))
        }
        ["accepts", dir, sheet] => Some(accepts(dir, sheet)),
        ["write", dir] => Some(Ok(program::write(&read(dir, "policies.txt")))),
        ["nodes", dir] => Some(Ok(expression::sheet(&read(dir, "outline.expr")))),
        ["judge", file] => Some(run_call(Path::new(file))),
        ["borders"] => Some(Ok(reference::borders::lines())),
        ["lean-borders"] => Some(Ok(reference::borders::lean_lines())),
        ["writings"] => Some(Ok(reference::writer::calls())),
        ["stops", dir, count] => Some(Ok(stops(dir, count.parse().ok()?))),
        ["desk-borders"] => Some(Ok(desk_sessions::borders())),
        ["desk", dir] => {
            let [policies, outline, trace] = ["policies.txt", "outline.txt", "trace.txt"].map(|name| read(dir, name));
            Some(Ok(desk_sessions::printed(&policies, &outline, &trace)))
        }
        ["expression-borders"] => Some(Ok(expression::borders())),
        ["generate", "state", seed, count, dir] => {
            Some(generate_calls(seed.parse().ok()?, count.parse().ok()?, Path::new(dir)))
        }
        ["generate", "policies", seed, count, dir] => {
            Some(generate_policies(seed.parse().ok()?, count.parse().ok()?, Path::new(dir)))
        }
        ["generate", "expression", seed, count, dir] => {
            Some(generate_expressions(seed.parse().ok()?, count.parse().ok()?, Path::new(dir)))
        }
        ["generate", "lean", seed, count, dir] => {
            Some(generate_lean(seed.parse().ok()?, count.parse().ok()?, Path::new(dir)))
        }
        ["generate", "desk", seed, count, dir] => {
            Some(desk_sessions::write(seed.parse().ok()?, count.parse().ok()?, Path::new(dir)))
        }
        ["generate", kind, seed, count, dir] => {
            let (seed, count) = (seed.parse().ok()?, count.parse().ok()?);
            Some(generate_cases(kind_of(kind)?, seed, count, Path::new(dir)))
        }
        ["expect", "state", dir, count] => Some(expect_calls(dir, count.parse().ok()?)),
        ["expect", "policies", dir, count] => Some(Ok(expect_policies(dir, count.parse().ok()?))),
        ["expect", "expression", dir, count] => Some(Ok(expect_expressions(dir, count.parse().ok()?))),
        ["expect", "summary", dir, count] => Some(Ok(expect_summaries(dir, count.parse().ok()?))),
        ["expect", "lean", dir, count] => Some(Ok(expect_lean(dir, count.parse().ok()?))),
        ["expect", "desk", dir, count] => Some(Ok(desk_sessions::expected(Path::new(dir), count.parse().ok()?))),
        ["expect", kind, dir, count] => Some(Ok(expect(kind_of(kind)?, dir, count.parse().ok()?))),
        _ => None,
    }
}

fn kind_of(word: &str) -> Option<Kind> {
    match word {
        "trace" => Some(Kind::Trace),
        "outline" => Some(Kind::Outline),
        "counterexample" => Some(Kind::Counterexample),
        _ => None,
    }
}

/// A file that can't be opened reads as empty.
fn read(dir: &str, name: &str) -> Vec<u8> {
    fs::read(Path::new(dir).join(name)).unwrap_or_default()
}

fn run_sheets(kind: Kind, dir: &str, policies: &str, other: &str) -> String {
    let (policies, other) = (read(dir, policies), read(dir, other));
    match kind {
        Kind::Trace => program::monitor(&policies, &other),
        Kind::Outline => program::check(&policies, &other),
        Kind::Counterexample => program::shown(&policies, &other),
    }
}

/// Its length, where a sheet is what the third program may print for a folder; else why it is not.
fn accepts(dir: &str, sheet: &str) -> io::Result<String> {
    let (policies, outline) = (read(dir, "policies.txt"), read(dir, "outline.txt"));
    let printed = fs::read(sheet)?;
    let told = match program::tables(&policies, &outline) {
        Err(_) if printed == program::why(&policies, &outline).as_bytes() => Ok(0),
        Err(_) => Err("a sheet is refused, and it is not told so".to_string()),
        Ok((policies, nodes)) => match read_trace(&printed) {
            Err(refusal) => {
                Err(format!("line {} is refused with {}", refusal.line, refusal.number))
            }
            Ok(steps) => shown_fault(&policies, &nodes, &steps).map_or(Ok(steps.len()), Err),
        },
    };
    told.map(|length| format!("{length}\n"))
        .map_err(|why| io::Error::other(format!("{sheet}: {why}")))
}

fn generate_cases(kind: Kind, seed: u64, count: usize, dir: &Path) -> io::Result<String> {
    fs::create_dir_all(dir)?;
    for (number, case) in generate::cases(kind, seed, count).into_iter().enumerate() {
        let Case { policies, other } = case;
        fs::write(dir.join(format!("{number:04}p")), policies)?;
        fs::write(dir.join(format!("{number:04}{}", kind.letter())), other)?;
    }
    Ok(String::new())
}

fn generate_policies(seed: u64, count: usize, dir: &Path) -> io::Result<String> {
    fs::create_dir_all(dir)?;
    for (number, text) in generate::rewritings::cases(seed, count).into_iter().enumerate() {
        fs::write(dir.join(format!("{number:04}p")), text)?;
    }
    Ok(String::new())
}

fn generate_calls(seed: u64, count: usize, dir: &Path) -> io::Result<String> {
    fs::create_dir_all(dir)?;
    for (number, call) in generate::states::calls(seed, count).into_iter().enumerate() {
        fs::write(dir.join(format!("{number:04}s")), call.write())?;
    }
    Ok(String::new())
}

fn generate_expressions(seed: u64, count: usize, dir: &Path) -> io::Result<String> {
    fs::create_dir_all(dir)?;
    for (number, text) in generate::expressions::cases(seed, count).into_iter().enumerate() {
        fs::write(dir.join(format!("{number:04}e")), text)?;
    }
    Ok(String::new())
}

fn expect_expressions(dir: &str, count: usize) -> String {
    let one = |number: usize| {
        format!("case {number}\n{}", expression::sheet(&read(dir, &format!("{number:04}e"))))
    };
    (0..count).map(one).collect()
}

fn generate_lean(seed: u64, count: usize, dir: &Path) -> io::Result<String> {
    fs::create_dir_all(dir)?;
    for (number, sheets) in generate::lean::cases(seed, count).into_iter().enumerate() {
        fs::write(dir.join(format!("{number:04}p")), sheets.policies)?;
        fs::write(dir.join(format!("{number:04}o")), sheets.outline)?;
        fs::write(dir.join(format!("{number:04}t")), sheets.trace)?;
    }
    Ok(String::new())
}

fn expect_lean(dir: &str, count: usize) -> String {
    let one = |number: usize| {
        let sheet = |letter: char| read(dir, &format!("{number:04}{letter}"));
        format!("case {number}\n{}", program::lean(&sheet('p'), &sheet('o'), &sheet('t')))
    };
    (0..count).map(one).collect()
}

fn expect_summaries(dir: &str, count: usize) -> String {
    let one = |number: usize| {
        let sheet = |letter: char| read(dir, &format!("{number:04}{letter}"));
        format!("case {number}\n{}", program::summarized(&sheet('p'), &sheet('o')))
    };
    (0..count).map(one).collect()
}

/// Where each text is refused with 15 or 16, if it is: the number, the place, and the bytes that some line has there.
fn stops(dir: &str, count: usize) -> String {
    let one = |number: usize| {
        let text = read(dir, &format!("{number:04}e"));
        let told = expression::stopped(&text).map_or("0".into(), |(number, place, bytes)| {
            let bytes: String = bytes.iter().map(|byte| format!(" {byte}")).collect();
            format!("{number} {place}{bytes}")
        });
        format!("{told}\n")
    };
    (0..count).map(one).collect()
}

fn expect(kind: Kind, dir: &str, count: usize) -> String {
    let one = |number: usize| {
        let (policies, other) = (format!("{number:04}p"), format!("{number:04}{}", kind.letter()));
        format!("case {number}\n{}", run_sheets(kind, dir, &policies, &other))
    };
    (0..count).map(one).collect()
}

fn expect_policies(dir: &str, count: usize) -> String {
    let one = |number: usize| {
        format!("case {number}\n{}", program::write(&read(dir, &format!("{number:04}p"))))
    };
    (0..count).map(one).collect()
}

fn expect_calls(dir: &str, count: usize) -> io::Result<String> {
    let one = |number: usize| {
        let text = run_call(&Path::new(dir).join(format!("{number:04}s")))?;
        Ok(format!("case {number}\n{text}"))
    };
    (0..count).map(one).collect()
}

/// The answer and its detail, then the state after the call.
fn run_call(file: &Path) -> io::Result<String> {
    let text = fs::read_to_string(file)?;
    let call = Call::read(&text).ok_or_else(|| io::Error::other("not a call of the judge"))?;
    let (answer, state) = call.run();
    let (answer, detail) = answer.numbers();
    Ok(format!("{answer} {detail}\n{}", write_state(&state)))
}

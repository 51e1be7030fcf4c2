//! expressions SEED COUNT: the proved reader of expressions against the reference program's, on fresh texts from the seed: what is printed,
//! and what is answered and stored, in tables of 0 to 200 places with contents of any kind.

use reference::expression::{self, read_expression};
use reference::generate::expressions::{fixed_cases, random_case};
use reference::rng::Rng;
use reference::sheet::Refusal;
use std::collections::BTreeMap;
use std::process::ExitCode;
use wiforekun::{print_expression, read_expression_code, EXPRESSION_TEXT_ROOM, NODES_ROOM};

fn main() -> ExitCode {
    let numbers: Option<Vec<u64>> = std::env::args().skip(1).map(|word| word.parse().ok()).collect();
    let Some([seed, count]) = numbers.as_deref() else {
        eprintln!("usage: expressions SEED COUNT");
        return ExitCode::from(2);
    };
    let mut rng = Rng::new(*seed);
    let mut tally = BTreeMap::new();
    let fixed = fixed_cases();
    let random = (fixed.len() as u64..*count).map(|_| None);
    for text in fixed.into_iter().map(Some).chain(random) {
        let text = text.unwrap_or_else(|| random_case(&mut rng));
        if let Err(why) = compare(&mut rng, &text, &mut tally) {
            println!("seed {seed}: {why}\n-- the text\n{}", String::from_utf8_lossy(&text));
            return ExitCode::FAILURE;
        }
    }
    let told: Vec<String> = tally.iter().map(|(number, times)| format!("{number}: {times}")).collect();
    println!("seed {seed}: {} expressions: no difference (by number, 0 accepted: {})", tally.values().sum::<u64>(), told.join(", "));
    ExitCode::SUCCESS
}

fn compare(rng: &mut Rng, text: &[u8], tally: &mut BTreeMap<u32, u64>) -> Result<(), String> {
    printed(text)?;
    let places = if rng.percent(5) { rng.below(201) as usize } else { NODES_ROOM + rng.below(9) as usize };
    let before: Vec<u8> = (0..places).map(|_| rng.below(256) as u8).collect();
    let (code, stored, number) = wanted(text, &before);
    let mut table = before;
    let found = read_expression_code(text, &mut table);
    *tally.entry(number).or_default() += 1;
    if (found, &table) == (code, &stored) {
        return Ok(());
    }
    Err(format!("answered {found}, not {code}, or the table of {places} places differs"))
}

fn printed(text: &[u8]) -> Result<(), String> {
    let expected = expression::sheet(text);
    let mut out = [0xa5; EXPRESSION_TEXT_ROOM + 3];
    let length = print_expression(text, &mut out);
    let rest = out[length..].iter().all(|byte| *byte == 0xa5);
    if &out[..length] == expected.as_bytes() && rest {
        return Ok(());
    }
    Err(format!("printed\n{}instead of\n{expected}", String::from_utf8_lossy(&out[..length])))
}

/// The number that is answered, what the table then holds, and the number of the refusal.
fn wanted(text: &[u8], before: &[u8]) -> (usize, Vec<u8>, u32) {
    let refused = |Refusal { number, line }: Refusal| (65536 * line + 512 + number as usize, before.to_vec(), number);
    if before.len() < NODES_ROOM {
        return refused(Refusal { number: 40, line: 0 });
    }
    match read_expression(text) {
        Err(refusal) => refused(refusal),
        Ok(nodes) => {
            let mut stored = before.to_vec();
            for (place, node) in nodes.iter().enumerate() {
                for (at, value) in [node.kind, node.a, node.b].into_iter().enumerate() {
                    stored[3 * place + at] = value as u8;
                }
            }
            (nodes.len(), stored, 0)
        }
    }
}

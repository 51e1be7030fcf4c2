//! Policy sheets written again, by the proved code and by the reference: the bytes, the answer, and what comes after the sheet.

use reference::generate::rewritings;
use reference::rng::Rng;
use reference::sheet::{read_policies, Refusal, LONGEST};
use reference::writer::write_into;

/// A byte that no sheet has.
const MARK: u8 = 0xa5;

/// How many sheets were written, how many refused, and how many bytes were written in all.
#[derive(Default)]
struct Tally {
    written: usize,
    refused: usize,
    bytes: usize,
}

fn proved(sheet: &[u8], room: usize) -> (Result<usize, Refusal>, Vec<u8>) {
    let mut out = vec![MARK; room];
    let refusal = |told: wiforekun::SheetRefusal| Refusal { number: told.number.0.into(), line: told.line as usize };
    (wiforekun::write_policies(sheet, &mut out).map_err(refusal), out)
}

fn expected(sheet: &[u8], room: usize) -> (Result<usize, Refusal>, Vec<u8>) {
    let mut out = vec![MARK; room];
    (write_into(sheet, &mut out), out)
}

impl Tally {
    /// One sheet: with room enough, with a byte less, and written a second time.
    fn compare(&mut self, sheet: &[u8]) -> Result<(), String> {
        let (told, out) = proved(sheet, LONGEST + 3);
        if (told, out.clone()) != expected(sheet, LONGEST + 3) {
            return Err(differs("written otherwise", sheet, told, &out));
        }
        let (short, kept) = proved(sheet, LONGEST - 1);
        if short != Err(Refusal { number: 40, line: 0 }) || kept.iter().any(|byte| *byte != MARK) {
            return Err(differs("taken into a short sheet", sheet, short, &kept));
        }
        let Ok(length) = told else {
            self.refused += 1;
            return Ok(());
        };
        let (again, second) = proved(&out[..length], LONGEST + 3);
        if again != Ok(length) || second != out {
            return Err(differs("changed by writing it again", sheet, again, &second));
        }
        self.written += 1;
        self.bytes += length;
        Ok(())
    }

}

/// The fixed sheets and as many random ones as told, compared: what came of it, or the first difference.
pub fn compared(seed: u64, count: usize) -> Result<String, String> {
    let mut tally = Tally::default();
    let mut rng = Rng::new(seed);
    rewritings::fixed_cases().iter().try_for_each(|sheet| tally.compare(sheet))?;
    for _ in 0..count {
        tally.compare(&rewritings::random_case(&mut rng))?;
    }
    let Tally { written, refused, bytes } = tally;
    Ok(format!("{written} policy sheets written again, with {bytes} bytes, and {refused} refused"))
}

fn differs(what: &str, sheet: &[u8], told: Result<usize, Refusal>, out: &[u8]) -> String {
    let length = told.unwrap_or(0);
    format!(
        "a policy sheet is {what}: {told:?}\n-- sheet, read as {:?}\n{}-- written\n{}",
        read_policies(sheet).map(|policies| policies.edges.len()),
        String::from_utf8_lossy(sheet),
        String::from_utf8_lossy(&out[..length])
    )
}

//! The counterexample of an outline: its length is the reference program's, and what was written is held to the definition of a run and
//! to the proved judge. Which of several shortest traces is written is left free.

use reference::counterexample::{counterexample, fault, Counterexample, TABLE_NUMBERS};
use reference::generate::Case;
use reference::judge::{unclosed, Answer, Judge, Step, CREATE, EVENT, MOST_CREATED, MOST_UNCLOSED};
use reference::outline::Node;
use reference::policy::{Policies, Sight};
use reference::program::{self, tables};

/// What a table holds before the call; no step has such numbers.
const MARK: u32 = 1_000_000;

#[derive(Default)]
pub struct Tally {
    outlines: usize,
    local: usize,
    shown: usize,
    longer: usize,
    halted_before: usize,
    beyond_limits: usize,
}

impl Tally {
    /// One case; sheets that are refused give no tables to call with, and are printed as the second program prints them.
    pub fn compare(&mut self, case: &Case) -> Result<(), String> {
        let printed = harness::why(&case.policies, &case.other);
        let compared = match tables(&case.policies, &case.other) {
            Ok((policies, nodes)) => self.compare_tables(&policies, &nodes).and_then(|table| same_sheet(&sheet(&table), &printed)),
            Err(_) => same_sheet(&program::check(&case.policies, &case.other), &printed),
        };
        compared.map_err(|why| {
            let [policies, outline] = [&case.policies, &case.other].map(|sheet| String::from_utf8_lossy(sheet));
            format!("counterexample: {why}\n-- policies\n{policies}-- outline\n{outline}")
        })
    }

    /// The numbers of the steps that were written.
    fn compare_tables(&mut self, policies: &Policies, nodes: &[Node]) -> Result<Vec<u32>, String> {
        let (flat, flat_nodes) = (harness::flat(&policies.edges).unwrap(), harness::flat_nodes(nodes).unwrap());
        let local = policies.sight.number() as u32;
        let due = counterexample(policies, nodes);
        self.outlines += 1;
        self.local += usize::from(policies.sight == Sight::Local);
        no_past(&flat, &flat_nodes)?;
        // one number too few: nothing is done; more than is needed: the same
        let (told, table) = harness::explained(&flat, local, &flat_nodes, TABLE_NUMBERS - 1, MARK);
        if told != (2, 40, 0) {
            return Err(format!("a table of {} numbers is answered with {told:?}", table.len()));
        }
        untouched(&table, 0)?;
        let mut steps = Vec::new();
        for numbers in [TABLE_NUMBERS + 7, TABLE_NUMBERS] {
            let (told, table) = harness::explained(&flat, local, &flat_nodes, numbers, MARK);
            if told != due.numbers() {
                return Err(format!("expected {:?}, found {told:?}", due.numbers()));
            }
            untouched(&table, told.2)?;
            if let Counterexample::Shown { policy, .. } = due {
                let followed = written(policies, nodes, policy, &steps_of(&table[..3 * told.2]))?;
                if numbers == TABLE_NUMBERS {
                    self.shown += 1;
                    self.halted_before += usize::from(followed == Followed::HaltedBefore);
                    self.beyond_limits += usize::from(followed == Followed::BeyondLimits);
                }
            }
            steps = table[..3 * told.2].to_vec();
        }
        self.longer += usize::from(matches!(due, Counterexample::Longer { .. }));
        Ok(steps)
    }

    pub fn told(&self) -> String {
        let Tally { outlines, local, shown, longer, halted_before, beyond_limits } = self;
        format!(
            "counterexamples of {outlines} outlines, {local} of them under local policies: {shown} shown, {longer} longer, each with two tables; the judge halts before the end in {halted_before}, {beyond_limits} are beyond its limits"
        )
    }
}

/// A number that tells no past is 41, after 40; nothing is written.
fn no_past(edges: &[u8], nodes: &[u8]) -> Result<(), String> {
    for local in [2, 256, u32::MAX] {
        if harness::checked(edges, local, nodes) != (2, 41) {
            return Err(format!("the past {local} is not refused"));
        }
        for (numbers, number) in [(TABLE_NUMBERS, 41), (TABLE_NUMBERS - 1, 40)] {
            let (told, table) = harness::explained(edges, local, nodes, numbers, MARK);
            if told != (2, number, 0) {
                return Err(format!("the past {local} and a table of {numbers} numbers are answered with {told:?}"));
            }
            untouched(&table, 0)?;
        }
    }
    Ok(())
}

/// How far the judge follows a counterexample.
#[derive(PartialEq, Eq)]
enum Followed {
    ToTheEnd,
    HaltedBefore,
    BeyondLimits,
}

/// The steps that were written are a counterexample, and the proved judge halts at the last of them, or before for another policy.
fn written(policies: &Policies, nodes: &[Node], policy: usize, steps: &[Step]) -> Result<Followed, String> {
    let show = || steps.iter().map(|step| format!("{:?}", step.row())).collect::<Vec<_>>().join(" ");
    if let Some(why) = fault(policies, nodes, policy, steps) {
        return Err(format!("what was written is no counterexample for policy {policy}: {why:?}: {}", show()));
    }
    if beyond_limits(steps) {
        return Ok(Followed::BeyondLimits);
    }
    let answers = harness::judged(policies, steps).unwrap();
    let mut judge = Judge::new(policies);
    let due: Vec<Answer> = steps.iter().map(|step| judge.judge(*step)).collect();
    let stop = answers.iter().position(|answer| *answer != Answer::Allowed);
    let followed = match stop.map(|stop| (answers[stop], stop + 1 == steps.len())) {
        Some((Answer::Violated(named), true)) if named == policy => Some(Followed::ToTheEnd),
        // the policy named is the lowest that any trace breaks
        Some((Answer::Violated(named), false)) if named > policy => Some(Followed::HaltedBefore),
        _ => None,
    };
    followed
        .filter(|_| answers == due)
        .ok_or_else(|| format!("the judge answers {answers:?}, for policy {policy}: {}", show()))
}

/// More creates, or more openings unclosed, than the judge takes.
fn beyond_limits(steps: &[Step]) -> bool {
    let creates = steps.iter().filter(|step| step.kind == EVENT && step.a == CREATE).count();
    let openings = (0..=steps.len()).map(|end| unclosed(&steps[..end]).len()).max();
    creates > MOST_CREATED || openings > Some(MOST_UNCLOSED)
}

/// The trace sheet of these steps, three numbers to each.
fn sheet(numbers: &[u32]) -> String {
    let line = |row: &[u32]| format!("{} {} {}\n", row[0], row[1], row[2]);
    "kind a b\n".to_string() + &numbers.chunks(3).map(line).collect::<String>()
}

/// What the third program printed is this text.
fn same_sheet(due: &str, printed: &[u8]) -> Result<(), String> {
    if due.as_bytes() == printed {
        return Ok(());
    }
    Err(format!("expected the text\n{due}-- found\n{}", String::from_utf8_lossy(printed)))
}

/// The numbers after so many steps are as they were.
fn untouched(table: &[u32], steps: usize) -> Result<(), String> {
    let kept = |place: usize| table[place] == MARK + place as u32;
    match (3 * steps..table.len()).find(|place| !kept(*place)) {
        None => Ok(()),
        Some(place) => Err(format!("{steps} steps are told, but number {place} of the table was written")),
    }
}

fn steps_of(numbers: &[u32]) -> Vec<Step> {
    let step = |row: &[u32]| Step { kind: row[0].into(), a: row[1].into(), b: row[2].into() };
    numbers.chunks(3).map(step).collect()
}

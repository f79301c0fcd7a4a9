//! `laws` and `solve` with a wrong premise. They are witnesses, not answers: such a slip is caught
//! where one of them lets a wrong answer pass, or does not let a right one pass.

use super::unearthed::{at, venue, OTHER_PART};
use super::Made;
use crate::make::model::Draft;
use crate::make::{Case, SolveCase};
use crate::paper::{Paper, Premise};
use crate::stream::solve::{answer, SolveAnswer};
use crate::{laws, solve};

type Check = fn(Premise, &SolveCase, &SolveAnswer) -> Result<(), String>;

pub struct Slip {
    pub name: &'static str,
    premise: Premise,
    witness: Check,
    case: fn(&mut Draft),
    /// What is done to the right answer; none where it is the right answer that must not pass.
    damage: Option<fn(&mut SolveAnswer)>,
}

fn by_laws(premise: Premise, case: &SolveCase, a: &SolveAnswer) -> Result<(), String> {
    laws::given(premise, &case.net, &case.fault, &a.buffer, a.verdict.amps)
}

fn by_solve(premise: Premise, case: &SolveCase, a: &SolveAnswer) -> Result<(), String> {
    solve::given(premise, &case.net, &case.fault, &a.buffer)
}

/// A voltage to earth at the boards whose numbers stand there.
fn lift(a: &mut SolveAnswer, boards: &[usize]) {
    for from in boards {
        let volts = a.buffer[*from..from + 12].chunks_mut(4);
        volts.for_each(|n| n[0] += 1);
    }
}

/// STAGE and LIGHT: every law is kept, they are tied to nothing.
fn other_part(a: &mut SolveAnswer) {
    lift(a, &OTHER_PART);
}

/// GEN, MAIN, DESK, BOOTH and FOYER, records 1 to 5.
fn own_part(a: &mut SolveAnswer) {
    lift(a, &[13, 37, 61, 85, 109]);
}

fn two_phases(d: &mut Draft) {
    venue(d);
    at(d, "DESK", 3, 1);
}

fn clear_of_earth(d: &mut Draft) {
    venue(d);
    at(d, "DESK", 2, 0);
}

pub fn slips() -> Vec<Slip> {
    use self::Premise::{AnyFault, Everywhere, NotAtK, Nowhere};
    let right = |name, premise, witness, case| Slip {
        name,
        premise,
        witness,
        case,
        damage: None,
    };
    let wrong = |name, premise, case, damage| Slip {
        name,
        premise,
        witness: by_laws,
        case,
        damage: Some(damage),
    };
    vec![
        right(
            "laws: premise kept at all boards",
            Everywhere,
            by_laws,
            venue,
        ),
        right(
            "solve: premise kept at all boards",
            Everywhere,
            by_solve,
            venue,
        ),
        right(
            "laws: premise kept at all boards, kind 3",
            Everywhere,
            by_laws,
            two_phases,
        ),
        right(
            "solve: premise kept at all boards, kind 3",
            Everywhere,
            by_solve,
            two_phases,
        ),
        right("laws: premise left out at k only", NotAtK, by_laws, venue),
        right("solve: premise left out at k only", NotAtK, by_solve, venue),
        wrong(
            "laws: premise left out at all boards",
            Nowhere,
            venue,
            other_part,
        ),
        right(
            "solve: premise left out at all boards",
            Nowhere,
            by_solve,
            venue,
        ),
        wrong(
            "laws: premise left out at all boards, kind 3",
            Nowhere,
            two_phases,
            other_part,
        ),
        right(
            "solve: premise left out at all boards, kind 3",
            Nowhere,
            by_solve,
            two_phases,
        ),
        wrong(
            "laws: premise left out in kind 2 too",
            AnyFault,
            clear_of_earth,
            own_part,
        ),
        right(
            "solve: premise left out in kind 2 too",
            AnyFault,
            by_solve,
            clear_of_earth,
        ),
    ]
}

impl Slip {
    /// What shows the slip; or that nothing does.
    pub fn tried(&self) -> Result<String, String> {
        let Case::Solve(case) = Made::Solve(self.case).case(self.name) else {
            return Err(format!("'{}' is no case to solve", self.name));
        };
        let ask = |premise, a: &SolveAnswer| (self.witness)(premise, &case, a);
        let right = answer(&Paper::AS_WRITTEN, &case);
        let mut shown = right.clone();
        if let Some(damage) = self.damage {
            damage(&mut shown);
        }
        let wrong = self.damage.is_some();
        let as_written = (
            ask(Premise::AsWritten, &right),
            ask(Premise::AsWritten, &shown),
        );
        match (wrong, as_written, ask(self.premise, &shown)) {
            (false, (Ok(()), _), Err(what)) => Ok(format!("a right answer does not pass: {what}")),
            (true, (Ok(()), Err(what)), Ok(())) => Ok(format!("a wrong answer passes: {what}")),
            (_, (Err(what), _), _) => {
                let beside = format!("the right answer beside '{}'", self.name);
                Err(format!("{beside} was not let pass ({what})"))
            }
            _ => Err(format!(
                "the deliberate fault '{}' was not caught",
                self.name
            )),
        }
    }
}

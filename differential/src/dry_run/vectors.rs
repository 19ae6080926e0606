//! A vector of dry runs, two lines: `dry LIST OUTLEN PLAN ROWS`, and a number, or `0 BYTES`.
use super::{Answer, Request, library, stepper};
use crate::vectors::bytes_of;

pub struct Case {
    request: Request,
    wanted: Answer,
}

impl Case {
    /// None where the line asks for another call.
    pub fn of(line: &str, answer: &str) -> Option<Case> {
        let ["dry", choices, room, plan, rows] = line.split(' ').collect::<Vec<_>>()[..] else { return None };
        let room = room.parse().expect("a length");
        let request = Request { plan: bytes_of(plan), rows: bytes_of(rows), choices: bytes_of(choices), room };
        let (number, bytes) = answer.split_once(' ').unwrap_or((answer, "-"));
        let wanted = Answer { number: number.parse().expect("a number"), bytes: bytes_of(bytes) };
        Some(Case { request, wanted })
    }

    fn differs(&self, got: Answer) -> Option<String> {
        let same_number = if got.number == self.wanted.number { " too, with other bytes" } else { "" };
        (got != self.wanted).then(|| format!("gives {}, the case {}{same_number}", got.number, self.wanted.number))
    }

    /// What the second stepper gives otherwise.
    pub fn second_stepper(&self) -> Option<String> {
        self.differs(stepper::answer(&self.request))
    }

    /// What the library gives otherwise; none where it has no such call.
    pub fn library(&self) -> Option<Option<String>> {
        let answer = library::answer(&self.request, self.wanted.bytes.len())?;
        Some(answer.map_or_else(Some, |got| self.differs(got)))
    }
}

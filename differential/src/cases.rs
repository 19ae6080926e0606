//! The cases of the program `replay`: requests with their answers, in the form that tools/sample_vectors.py describes.
use crate::rust_side::{self, Answer};
use crate::usage::stop;
use sort_placement::exports::Call;
use std::path::Path;

#[derive(Clone)]
pub struct Request {
    pub call: Call,
    pub room: usize,
    pub file: Vec<u8>,
}

impl Request {
    /// The Rust's answer.
    pub fn answer(&self) -> Answer {
        rust_side::answer(self.call, &self.file, self.room)
    }
}

/// A request, the number that is to be answered, and what is to be written.
#[derive(Clone)]
pub struct Case {
    pub request: Request,
    pub number: u32,
    pub bytes: Vec<u8>,
}

const HEADER: usize = 20;
const CHECK: u8 = 5;
/// The order check's answer where it gives none.
const NONE: u8 = 255;

/// A call's number in a case, its settings and its node; the copy is not replayed.
fn numbers(call: Call) -> Option<(u8, [u8; 3], u32)> {
    match call {
        Call::Ensure => Some((0, [0; 3], 0)),
        Call::Parallelize => Some((1, [0; 3], 0)),
        Call::Preserve(settings) => Some((2, settings, 0)),
        Call::Push => Some((3, [0; 3], 0)),
        Call::Partial(node) => Some((4, [0; 3], node)),
        Call::Check => Some((CHECK, [0; 3], 0)),
        _ => None,
    }
}

fn call_of(header: &[u8]) -> Call {
    match header[0] {
        0 => Call::Ensure,
        1 => Call::Parallelize,
        2 => Call::Preserve([header[10], header[11], header[12]]),
        3 => Call::Push,
        4 => Call::Partial(u32::from_le_bytes(header[16..20].try_into().expect("four bytes"))),
        CHECK => Call::Check,
        other => panic!("no call {other}"),
    }
}

impl Case {
    /// A request with the Rust's answer; none for a call that is not replayed.
    pub fn of(request: Request) -> Option<Case> {
        numbers(request.call)?;
        let answer = request.answer();
        Some(Case { request, number: answer.number, bytes: answer.bytes })
    }

    pub fn written(&self) -> Vec<u8> {
        let (call, settings, node) = numbers(self.request.call).expect("a call that is replayed");
        let (passes, answer): (u8, &[u8]) = match call {
            CHECK => (*self.bytes.first().unwrap_or(&NONE), &[]),
            _ => (NONE, &self.bytes),
        };
        let mut out = vec![call, self.number as u8, passes, 0];
        for length in [self.request.file.len(), answer.len(), self.request.room] {
            out.extend(u16::try_from(length).expect("a file's length").to_le_bytes());
        }
        out.extend(settings);
        out.extend([0; 3]);
        out.extend(node.to_le_bytes());
        out.extend(&self.request.file);
        out.extend(answer);
        out
    }

    /// The case at the start of the bytes, and how many it takes.
    fn read(bytes: &[u8]) -> (Case, usize) {
        let length = |at: usize| u16::from_le_bytes([bytes[at], bytes[at + 1]]) as usize;
        let call = call_of(bytes);
        let (file, answer) = (length(4), length(6));
        let wanted = match bytes[2] {
            NONE => bytes[HEADER + file..HEADER + file + answer].to_vec(),
            passes => vec![passes],
        };
        // the check's answer is one byte, whatever the length says
        let room = if call == Call::Check { 1 } else { length(8) };
        let request = Request { call, room, file: bytes[HEADER..HEADER + file].to_vec() };
        (Case { request, number: bytes[1] as u32, bytes: wanted }, HEADER + file + answer)
    }
}

pub fn read(path: &Path) -> Vec<Case> {
    let bytes = std::fs::read(path).unwrap_or_else(|e| stop(&format!("{}: {e}", path.display())));
    let mut out = vec![];
    let mut at = 0;
    while at < bytes.len() {
        let (case, length) = Case::read(&bytes[at..]);
        out.push(case);
        at += length;
    }
    out
}

#[cfg(test)]
mod tests {
    use super::*;
    use sort_placement::text;

    #[test]
    fn what_is_written_is_read_again() {
        let tree = text::parse("merge keys=0\n  source streams=2 width=1").expect("a plan");
        for call in [Call::Ensure, Call::Preserve([2, 0, 255]), Call::Partial(7), Call::Check] {
            let room = if call == Call::Check { 1 } else { 700 };
            let case = Case::of(Request { call, room, file: tree.write() }).expect("it is replayed");
            let bytes = case.written();
            let (again, length) = Case::read(&bytes);
            assert_eq!(length, bytes.len());
            assert_eq!((again.request.call, again.number, again.bytes), (call, case.number, case.bytes));
        }
    }
}

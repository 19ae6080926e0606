//! The export's answers, with guard bytes around the output.
use super::{Answer, Request};
use crate::library::{FILL, GUARD};
use sort_placement::exports;

/// What stands in a lent output after the export has answered a number, if so many bytes were to be written.
fn held(number: u32, out: &[u8], wanted: usize) -> Result<Answer, String> {
    let written = if number == 0 { wanted } else { 0 };
    match out[written..].iter().any(|byte| *byte != FILL) {
        true => Err(format!("answers {number} and writes past {written} bytes")),
        false => Ok(Answer { number, bytes: out[..written].to_vec() }),
    }
}

/// The answer of the export where so many bytes are to be written, or where it wrote otherwise. `None` where the library has no such
/// call.
pub fn answer(request: &Request, wanted: usize) -> Option<Result<Answer, String>> {
    let mut lent = vec![FILL; 2 * GUARD + request.room];
    let (before, rest) = lent.split_at_mut(GUARD);
    let number = exports::dry_run(&request.plan, &request.rows, &request.choices, &mut rest[..request.room])?;
    if before.iter().any(|byte| *byte != FILL) {
        return Some(Err(format!("answers {number} and writes before the output")));
    }
    Some(held(number, rest, wanted))
}

/// The same with allocations of just the lengths, so that a memory checker sees a step outside.
pub fn answer_on_heap(request: &Request, wanted: usize) -> Option<Result<Answer, String>> {
    let [plan, rows, choices] = [&request.plan, &request.rows, &request.choices].map(|bytes| Box::<[u8]>::from(&bytes[..]));
    let mut out = vec![FILL; request.room].into_boxed_slice();
    let number = exports::dry_run(&plan, &rows, &choices, &mut out)?;
    Some(held(number, &out, wanted))
}

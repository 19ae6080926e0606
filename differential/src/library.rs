//! The proved library's answers, with guard bytes around the output.
use crate::rust_side::Answer;
use sort_placement::exports::Call;
use sort_placement::plan::{BLOCK, MOST_BLOCKS};

pub const GUARD: usize = 64;
pub const FILL: u8 = 0xA5;

/// How many bytes of the output an answer has.
fn written(call: Call, number: u32, out: &[u8]) -> usize {
    match (number, call) {
        (0, Call::Check) => 1,
        (0, _) => (u16::from_le_bytes([out[2], out[3]]) as usize * BLOCK).min(out.len()),
        _ => 0,
    }
}

/// The answer of an export, or what it wrote where it must not. `None` where the library has no such call.
pub fn answer(call: Call, file: &[u8], room: usize) -> Option<Result<Answer, String>> {
    let mut lent = vec![FILL; 2 * GUARD + room.max(MOST_BLOCKS * BLOCK)];
    let number = call.run(file, &mut lent[GUARD..GUARD + room])?;
    let written = written(call, number, &lent[GUARD..GUARD + room]);
    if lent[..GUARD].iter().chain(&lent[GUARD + written..]).any(|b| *b != FILL) {
        return Some(Err(format!("{} answered {number} and wrote outside of its {written} bytes", call.name())));
    }
    Some(Ok(Answer { number, bytes: lent[GUARD..GUARD + written].to_vec(), panicked: false }))
}

/// The same with allocations of just the lengths.
pub fn answer_on_heap(call: Call, file: &[u8], room: usize) -> Option<Result<Answer, String>> {
    let file: Box<[u8]> = file.into();
    let mut out = vec![FILL; room].into_boxed_slice();
    let number = call.run(&file, &mut out)?;
    let bytes = out[..written(call, number, &out)].to_vec();
    Some(Ok(Answer { number, bytes, panicked: false }))
}

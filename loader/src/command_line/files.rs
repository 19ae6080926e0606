//! Input up to a bound, and output that may have no reader.
use crate::failure::Failure;
use sort_placement::MOST_BYTES;
use sort_placement::text::{MOST_TEXT_BYTES, TextError};
use std::ffi::OsString;
use std::fs::File;
use std::io::{self, ErrorKind, Read, Write};

/// A path, or standard input or output.
pub type Place = Option<OsString>;

fn name(place: &Place, standard: &str) -> String {
    match place.as_deref() {
        None => standard.into(),
        Some(path) if path.is_empty() => "the path ''".into(),
        Some(path) => path.display().to_string(),
    }
}

/// Reads one byte more than there may be, which tells that there are too many, and no more of a large file.
fn bytes(place: &Place, most: usize) -> Result<Vec<u8>, Failure> {
    let mut bytes = vec![];
    let bound = most as u64 + 1;
    let read = match place {
        None => io::stdin().take(bound).read_to_end(&mut bytes),
        Some(path) => File::open(path).and_then(|f| f.take(bound).read_to_end(&mut bytes)),
    };
    read.map_err(|e| Failure::File(format!("{}: {e}", name(place, "standard input"))))?;
    Ok(bytes)
}

/// A plan file; the library refuses one that is too long by its length.
pub fn plan_file(place: &Place) -> Result<Vec<u8>, Failure> {
    bytes(place, MOST_BYTES)
}

/// A text.
pub fn text(place: &Place) -> Result<String, Failure> {
    let bytes = bytes(place, MOST_TEXT_BYTES)?;
    if bytes.len() > MOST_TEXT_BYTES {
        return Err(TextError::TooLong.into());
    }
    String::from_utf8(bytes).map_err(|e| {
        let good = &e.as_bytes()[..e.utf8_error().valid_up_to()];
        let good = String::from_utf8_lossy(good);
        let (line, column) = (1 + good.matches('\n').count(), 1 + good.chars().rev().take_while(|c| *c != '\n').count());
        Failure::NoText(format!("{}: line {line}, column {column}: not a text in UTF-8", name(place, "standard input")))
    })
}

/// Writes all of it. A reader that went away wanted no more, which is no failure; a full disk is one.
pub fn output(place: &Place, bytes: &[u8]) -> Result<(), Failure> {
    let written = match place {
        None => {
            let mut out = io::stdout().lock();
            match out.write_all(bytes).and_then(|()| out.flush()) {
                Err(e) if e.kind() == ErrorKind::BrokenPipe => Ok(()),
                other => other,
            }
        }
        Some(path) => File::create(path).and_then(|mut f| f.write_all(bytes)),
    };
    written.map_err(|e| Failure::File(format!("{}: {e}", name(place, "standard output"))))
}

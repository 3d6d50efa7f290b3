//! Files in and out, with messages that name them.

use std::fs::{self, File};
use std::io::{self, Read};
use std::path::Path;

/// No sheet, script, list of names or list of times that is accepted is longer by far; a device that never ends is not read on.
const LONGEST: u64 = 1 << 20;

/// The first bytes of a saved state. The crate `pilgonca` has them only with its feature `visits`.
const SAVED: &[u8] = b"PILGONCA";

/// A file that cannot be read or written, in words.
#[derive(Debug)]
pub struct Unusable(pub String);

/// Whether these are the bytes of a saved state, damaged or not.
pub fn is_saved(bytes: &[u8]) -> bool {
    bytes.starts_with(SAVED)
}

/// A path as it can be printed.
pub fn name(path: &Path) -> String {
    match path.to_str() {
        Some("-") => "standard input".to_string(),
        Some(text) if !text.chars().any(char::is_control) => text.to_string(),
        _ => format!("{path:?}"),
    }
}

/// All of a file; `-` is standard input.
pub fn read(path: &Path) -> Result<Vec<u8>, Unusable> {
    let all = match path.to_str() {
        Some("-") => limited(io::stdin().lock()),
        _ => File::open(path).and_then(limited),
    };
    match all {
        Err(error) => Err(Unusable(format!("cannot read {}: {error}", name(path)))),
        Ok(bytes) if bytes.len() as u64 > LONGEST => Err(Unusable(format!(
            "cannot read all of {}: it is longer than a megabyte, and nothing that desk reads is",
            name(path)
        ))),
        Ok(bytes) => Ok(bytes),
    }
}

fn limited(from: impl Read) -> io::Result<Vec<u8>> {
    let mut bytes = Vec::new();
    from.take(LONGEST + 1).read_to_end(&mut bytes)?;
    Ok(bytes)
}

pub fn write(path: &Path, bytes: impl AsRef<[u8]>) -> Result<(), Unusable> {
    let written = fs::write(path, bytes);
    written.map_err(|error| Unusable(format!("cannot write {}: {error}", name(path))))
}

/// Writes a text. What is for standard output is given back: it is printed in the place of words.
pub fn put(path: &Path, text: String) -> Result<Option<String>, Unusable> {
    if path == Path::new("-") {
        return Ok(Some(text));
    }
    write(path, text)?;
    Ok(None)
}

#[cfg(all(test, feature = "visits"))]
mod tests {
    #[test]
    fn a_saved_state_begins_as_the_package_says() {
        assert_eq!(super::SAVED, pilgonca::saved::MARK);
    }
}

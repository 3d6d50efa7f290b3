//! What is wrong with a file of times, as it is told.

use crate::diagnosis::Diagnosis;
use crate::paint::Paint;
use crate::problem::{At, Problem};
use crate::reader::Flaw;
use std::ops::Range;

/// What is wrong, the bytes of the file that are, and what would be right.
#[derive(Debug)]
pub struct Fault {
    pub bytes: Range<usize>,
    pub wrong: String,
    pub right: String,
}

impl Fault {
    /// With the line, and a mark under the part of it. `refused` is the number, where it is the core that refuses.
    pub fn told(
        self,
        text: &[u8],
        place: (&str, Option<u8>),
        words: String,
        paint: Paint,
    ) -> Problem {
        let (file, refused) = place;
        Problem::at(words, self.at(text, file, refused, paint))
    }

    fn at(self, text: &[u8], file: &str, refused: Option<u8>, paint: Paint) -> At {
        let Range { start, end } = self.bytes;
        let lf = |byte: &u8| *byte == b'\n';
        let before = &text[..start];
        let from = before.iter().rposition(lf).map_or(0, |at| at + 1);
        let rest = text[start..].iter().position(lf);
        let to = rest.map_or(text.len(), |length| start + length);
        let diagnosis = Diagnosis {
            line_number: 1 + before.iter().filter(|byte| lf(byte)).count(),
            line: text[from..to]
                .strip_suffix(b"\r")
                .unwrap_or(&text[from..to]),
            flaw: Flaw {
                mark: start - from..end.min(to) - from,
                wrong: self.wrong,
            },
            right: self.right,
        };
        diagnosis.at(file, refused, paint)
    }
}

//! `desk tiny`: every tiny sheet, or one of them, to be saved and tried; and what each says.

use crate::commands::{Desk, Stop};
use crate::documents;
use crate::input;
use crate::paint::{Paint, Tone};
use pilgonca::raw::TINY_SHEETS;
use pilgonca::tiny_sheets;
use std::path::Path;

/// Some of the tiny sheets, each with its number.
type Numbered = Vec<(usize, Vec<u8>)>;

impl Desk {
    pub fn tiny(
        &self,
        number: Option<&str>,
        list: bool,
        out: Option<&Path>,
    ) -> Result<String, Stop> {
        let sheets = chosen(number)?;
        if list {
            return Ok(listed(&sheets, self.paints.out));
        }
        if self.json {
            return Ok(documents::tiny(&sheets)?.to_string());
        }
        let text: String = sheets.iter().map(|(_, text)| ascii(text)).collect();
        let out = out.unwrap_or(Path::new("-"));
        let words = match number {
            Some(_) => format!("{}: tiny sheet {}\n", input::name(out), sheets[0].0),
            None => format!("{}: all {TINY_SHEETS} tiny sheets\n", input::name(out)),
        };
        Ok(input::put(out, text)?.unwrap_or(words))
    }
}

/// The one with this number, or all of them.
fn chosen(number: Option<&str>) -> Result<Numbered, Stop> {
    let Some(word) = number else {
        return Ok(tiny_sheets().into_iter().enumerate().collect());
    };
    let number = word.parse().ok().filter(|number| *number < TINY_SHEETS);
    let number = number.ok_or_else(|| {
        let last = TINY_SHEETS - 1;
        Stop::usage(format!(
            "{word:?} is no tiny sheet: they have the numbers 0 to {last}"
        ))
    })?;
    Ok(vec![(number, tiny_sheets().swap_remove(number))])
}

fn ascii(text: &[u8]) -> String {
    String::from_utf8_lossy(text).into_owned()
}

/// A line for each: its number, own, and what stands behind `m=` of each method.
fn listed(sheets: &Numbered, paint: Paint) -> String {
    let line = |number: &str, own: &str, methods: [&str; 2]| {
        let [first, second] = methods;
        let line = format!("  {number:>5}  {own:3}  {first:14}  {second}");
        format!("{}\n", line.trim_end())
    };
    let mut text = line("sheet", "own", ["method 0", "method 1"]);
    for (number, sheet) in sheets {
        let sheet = ascii(sheet);
        let behind =
            |word: &'static str| sheet.lines().filter_map(move |one| one.strip_prefix(word));
        let mut methods = behind("m=");
        let methods = [(); 2].map(|()| methods.next().unwrap_or(""));
        let own = behind("own=").next().unwrap_or("");
        text += &line(&number.to_string(), own, methods);
    }
    let key = "each has one subject and one type, type 0, a ref type in no category";
    text + &format!("\n  {}\n", paint.of(Tone::Quiet, key))
}

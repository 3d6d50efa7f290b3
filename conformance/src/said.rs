//! The stack that each function takes at most, in KB, as README, header, guide and the others say it. Tests hold what is measured to these.

pub const NEW: usize = 144;
pub const MOVE: usize = 152;
pub const CALL: usize = 176;
pub const ANSWER: usize = 168;
pub const RUN: usize = 184;
pub const OFFERS: usize = 8;
pub const LOAD: usize = 28;
pub const TINY: usize = 20;
pub const DOORS: usize = 4;
/// On Case P.
pub const SMALL_CALL: usize = 36;
pub const SMALL_ANSWER: usize = 48;
/// The program `script`, as a whole.
pub const SCRIPT: usize = 252;

/// The program `doors`, as a whole.
pub const DOORS_PROGRAM: usize = 84;

/// What another machine may take beyond that.
pub const ALLOWED: usize = 8;

/// Where the numbers stand: a file, and words of it, however they are broken into lines.
pub fn pages() -> impl Iterator<Item = (&'static str, String)> {
    let guide = guide().map(|words| ("docs/GUIDE.md", words));
    let measured = measured().map(|words| ("docs/MEASURED.md", words));
    others().into_iter().chain(guide).chain(measured)
}

/// The rows of the guide's table.
fn guide() -> [String; 9] {
    [
        format!("| `pilgonca_new`, `_move` | {NEW}, {MOVE} KB |"),
        format!("| `pilgonca_call` | {CALL} KB; {SMALL_CALL} on Case P |"),
        format!("| `pilgonca_answer` | {ANSWER} KB; {SMALL_ANSWER} on Case P |"),
        format!("| `pilgonca_run` | {RUN} KB |"),
        format!("| `pilgonca_offers` | {OFFERS} KB |"),
        format!("| `pilgonca_load` | {LOAD} KB |"),
        format!("| `pilgonca_tiny` | {TINY} KB |"),
        format!("| `pilgonca_doors` | {DOORS} KB |"),
        format!("| `pilgonca_script` | {SCRIPT} KB in the program `script`"),
    ]
}

/// What was measured: a table, and behind it the tiny sheets, marks and arrivals, and the program for these.
fn measured() -> [String; 7] {
    [
        format!("| new; move | {NEW}; {MOVE} KB |"),
        format!("| call; answer | {CALL}; {ANSWER} KB |"),
        format!("| {SMALL_CALL}; {SMALL_ANSWER} KB | | a run of all four | {RUN} KB |"),
        format!("| | {OFFERS} KB | {LOAD} KB |"),
        format!("The tiny sheets (`pilgonca_tiny`) take {TINY} KB"),
        format!("Marks and arrivals (`pilgonca_doors`) take {DOORS} KB"),
        format!("needs {DOORS_PROGRAM} KB on the longest lists"),
    ]
}

/// Pages that name few of them.
fn others() -> [(&'static str, String); 6] {
    let deepest = format!("deepest request takes {CALL} KB of stack");
    let header = format!(
        "deepest request takes {CALL} KB, a run {RUN}; load {LOAD}, tiny {TINY}, offers {OFFERS}, doors {DOORS}."
    );
    let script = format!("the program `script` takes {SCRIPT} KB of stack");
    [
        ("README.md", deepest.clone()),
        ("README.md", script),
        ("include/pilgonca.h", header),
        ("docs/pilgonca.3", deepest.clone()),
        ("docs/HOSTILE.md", format!("14 ms and {CALL} KB")),
        ("pilgonca/src/lib.rs", deepest),
    ]
}

//! Demand 3 (L23) on whole runs of the model.

use crate::book::{Book, Trouble};
use crate::script::{self, Run};

/// Runs an input with its book beside it: the run, and what the book finds wrong.
pub fn run(input: &[u8]) -> (Run, Result<(), Trouble>) {
    let run = script::run_whole(input);
    let found = check(input, &run);
    (run, found)
}

fn check(input: &[u8], run: &Run) -> Result<(), Trouble> {
    let (Some(model), Ok(script)) = (&run.model, script::read(input)) else {
        return Ok(());
    };
    let book = Book::of_run(&script.table, &run.requests, &run.results)?;
    book.check_exactly(&model.state)
}

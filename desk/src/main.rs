//! The program: words in, text out, and an exit status.

use desk::args::parse;
use desk::called;
use desk::commands::{perform, End, Over, Paints};
use desk::paint::Paint;
use std::env;
use std::io::{self, ErrorKind, IsTerminal, Write};
use std::process::ExitCode;

fn main() -> ExitCode {
    let args = match parse(env::args_os().skip(1)) {
        Ok(args) => args,
        Err(why) => {
            let called = called();
            complain(&format!(
                "desk: {why}; {called} --help says what there is\n"
            ));
            return ExitCode::from(End::BadUsage.status(false));
        }
    };
    let Over { out, error, status } = perform(&args, paints());
    let status = print(&out, status);
    complain(&error);
    status
}

fn paints() -> Paints {
    let [no_color, term] = ["NO_COLOR", "TERM"].map(env::var_os);
    let choose = |terminal| Paint::choose(terminal, no_color.as_deref(), term.as_deref());
    Paints {
        out: choose(io::stdout().is_terminal()),
        error: choose(io::stderr().is_terminal()),
    }
}

/// Prints, and says how the program ends. A reader that went away has seen what it wanted.
fn print(text: &str, status: u8) -> ExitCode {
    let mut out = io::stdout().lock();
    match out.write_all(text.as_bytes()).and_then(|()| out.flush()) {
        Err(error) if error.kind() != ErrorKind::BrokenPipe => {
            complain(&format!("desk: cannot print: {error}\n"));
            ExitCode::from(End::NoFile.status(false))
        }
        _ => ExitCode::from(status),
    }
}

/// A message; where nobody can read it, nothing more can be done.
fn complain(message: &str) {
    let _ = io::stderr().write_all(message.as_bytes());
}

//! Colours, only where a person looks: on a terminal that has them, and not where NO_COLOR says so.

use std::ffi::OsStr;

/// What a piece of text is, for its colour.
#[derive(Clone, Copy)]
pub enum Tone {
    Strong,
    Good,
    Bad,
    Quiet,
}

/// Whether text for one stream is coloured.
#[derive(Clone, Copy)]
pub struct Paint {
    on: bool,
}

impl Paint {
    pub const PLAIN: Paint = Paint { on: false };

    /// NO_COLOR counts where it is set to anything but an empty word. A dumb terminal, or one of which nothing is known, shows no colours.
    pub fn choose(terminal: bool, no_color: Option<&OsStr>, term: Option<&OsStr>) -> Paint {
        let asked = no_color.is_none_or(OsStr::is_empty);
        let able = term.is_some_and(|term| !term.is_empty() && term != "dumb");
        Paint {
            on: terminal && asked && able,
        }
    }

    pub fn of(self, tone: Tone, text: &str) -> String {
        if !self.on || text.is_empty() {
            return text.to_string();
        }
        let code = match tone {
            Tone::Strong => "1",
            Tone::Good => "32",
            Tone::Bad => "31",
            Tone::Quiet => "2",
        };
        format!("\x1b[{code}m{text}\x1b[0m")
    }
}

#[cfg(test)]
mod tests {
    use super::*;

    #[test]
    fn colours_are_for_terminals() {
        let shown = |terminal, no_color: Option<&str>, term: Option<&str>| {
            let paint = Paint::choose(terminal, no_color.map(OsStr::new), term.map(OsStr::new));
            paint.of(Tone::Bad, "x")
        };
        let xterm = Some("xterm-256color");
        assert_eq!(shown(true, None, xterm), "\x1b[31mx\x1b[0m");
        assert_eq!(shown(true, Some(""), xterm), "\x1b[31mx\x1b[0m");
        assert_eq!(shown(true, Some("1"), xterm), "x");
        assert_eq!(shown(false, None, xterm), "x");
        for dumb in [Some("dumb"), Some(""), None] {
            assert_eq!(shown(true, None, dumb), "x");
        }
    }
}

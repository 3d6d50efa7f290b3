//! A picture as SVG text: whole pixels, classes for the looks, and room for text by an estimate that is never too small for common sans fonts.

use std::fmt::Write;

/// The space around everything.
pub const MARGIN: usize = 24;

const STYLE: &str = "\
text { font-family: Helvetica, Arial, 'DejaVu Sans', sans-serif; font-size: 12px; fill: #1b2733; }
.title { font-size: 18px; font-weight: bold; }
.note { fill: #5a6775; }
.strong { font-weight: bold; }
.light { fill: #ffffff; font-weight: bold; }
.chip { font-size: 11px; }
.middle { text-anchor: middle; }
.right { text-anchor: end; }
.grid { stroke: #d5dce4; stroke-width: 1; }
.edge { stroke: #9fadbb; stroke-width: 1; }
.blank { fill: #ffffff; stroke: #d5dce4; stroke-width: 1; }
.shade { fill: #eef2f6; }
.subtype { fill: #1f3a5f; }
.strict { fill: #3f7cac; }
.loose { fill: #ffffff; stroke: #3f7cac; stroke-width: 2; }
.free { stroke: #8593a1; stroke-width: 2; }
.cell { fill: #ffffff; stroke: #3f7cac; stroke-width: 1.5; }
.owned { stroke: #8a5a0b; stroke-width: 3; }
.own { fill: #fdf5e3; stroke: #8a5a0b; stroke-width: 2.5; }
.stripe { fill: #fdf5e3; }
.pair { fill: #ffffff; fill-opacity: 0; }
.call { fill: #1f3a5f; stroke: #1f3a5f; stroke-width: 1.5; }
.come { fill: #ffffff; stroke: #1f3a5f; stroke-width: 1.5; }
.open { fill: #ffffff; stroke: #1f3a5f; stroke-width: 1.5; stroke-dasharray: 6 3; }
.only { fill: #ffffff; stroke: #8593a1; stroke-width: 1; stroke-dasharray: 2 2; }
.adapter { fill: #fdf5e3; stroke: #a8731a; stroke-width: 1.5; stroke-dasharray: 5 3; }
.object { fill: #dfe9f2; stroke: #1f3a5f; stroke-width: 2.5; }
.way { fill: none; stroke: #5a6775; stroke-width: 1.5; }
.tip { fill: #5a6775; }
";

/// Where the title and the note under it end.
pub const BELOW_TITLE: usize = MARGIN + 54;

/// What is drawn so far.
pub struct Canvas {
    title: String,
    /// How wide the title and the note are.
    words: usize,
    body: String,
}

impl Canvas {
    /// A picture with a title, and a note under it.
    pub fn titled(title: &str, note: &str) -> Canvas {
        let mut canvas = Canvas {
            title: title.to_string(),
            words: text_width(title, 18, true).max(text_width(note, 12, false)),
            body: String::new(),
        };
        canvas.text("title", (MARGIN, MARGIN + 16), title);
        canvas.text("note", (MARGIN, MARGIN + 38), note);
        canvas
    }

    pub fn rect(&mut self, class: &str, (x, y): (usize, usize), (width, height): (usize, usize)) {
        let round = if height < 10 { 0 } else { 3 };
        self.add(format_args!("<rect class=\"{class}\" x=\"{x}\" y=\"{y}\" width=\"{width}\" height=\"{height}\" rx=\"{round}\"/>"));
    }

    pub fn circle(&mut self, class: &str, (x, y): (usize, usize), radius: usize) {
        self.add(format_args!(
            "<circle class=\"{class}\" cx=\"{x}\" cy=\"{y}\" r=\"{radius}\"/>"
        ));
    }

    pub fn line(&mut self, class: &str, (x, y): (usize, usize), (to_x, to_y): (usize, usize)) {
        self.add(format_args!(
            "<line class=\"{class}\" x1=\"{x}\" y1=\"{y}\" x2=\"{to_x}\" y2=\"{to_y}\"/>"
        ));
    }

    /// A square that stands on a corner.
    pub fn diamond(&mut self, class: &str, (x, y): (usize, usize), radius: usize) {
        let ((left, right), (top, bottom)) = ((x - radius, x + radius), (y - radius, y + radius));
        self.add(format_args!(
            "<path class=\"{class}\" d=\"M {left} {y} L {x} {top} L {right} {y} L {x} {bottom} Z\"/>"
        ));
    }

    /// What is drawn next, and all together, is told by a tooltip; an empty one is none.
    pub fn told(&mut self, tooltip: &str, draw: impl FnOnce(&mut Canvas)) {
        if tooltip.is_empty() {
            return draw(self);
        }
        self.add(format_args!("<g><title>{}</title>", escaped(tooltip)));
        draw(self);
        self.add(format_args!("</g>"));
    }

    pub fn text(&mut self, class: &str, (x, y): (usize, usize), text: &str) {
        let text = escaped(text);
        self.add(format_args!(
            "<text class=\"{class}\" x=\"{x}\" y=\"{y}\">{text}</text>"
        ));
    }

    /// Text that goes upward from a point.
    pub fn upward(&mut self, (x, y): (usize, usize), text: &str) {
        let text = escaped(text);
        self.add(format_args!(
            "<text transform=\"translate({x} {y}) rotate(-90)\">{text}</text>"
        ));
    }

    /// Whether something of this class is drawn.
    #[cfg(feature = "visits")]
    pub fn has(&self, class: &str) -> bool {
        self.body.contains(&format!("class=\"{class}\""))
    }

    /// An element as it is written.
    pub fn add(&mut self, element: std::fmt::Arguments) {
        writeln!(self.body, "{element}").expect("a String takes everything");
    }

    /// The whole file, on white, for what reaches so far right and down.
    pub fn finish(self, right: usize, bottom: usize) -> String {
        let Canvas { title, words, body } = self;
        let (width, height) = (right.max(MARGIN + words) + MARGIN, bottom + MARGIN);
        format!(
            "<svg xmlns=\"http://www.w3.org/2000/svg\" width=\"{width}\" height=\"{height}\" viewBox=\"0 0 {width} {height}\">\n\
             <title>{}</title>\n<style>\n{STYLE}</style>\n<rect width=\"{width}\" height=\"{height}\" fill=\"#ffffff\"/>\n{body}</svg>\n",
            escaped(&title)
        )
    }
}

/// Text between tags.
fn escaped(text: &str) -> String {
    let one = |letter: char| match letter {
        '&' => "&amp;".to_string(),
        '<' => "&lt;".to_string(),
        '>' => "&gt;".to_string(),
        letter if letter.is_control() || matches!(letter, '\u{fffe}' | '\u{ffff}') => {
            "?".to_string()
        }
        letter => letter.to_string(),
    };
    text.chars().map(one).collect()
}

/// The pixels that a text takes at most, at a font size; bold text is wider.
pub fn text_width(text: &str, size: usize, bold: bool) -> usize {
    let hundredths: usize = text.chars().map(letter_width).sum();
    let hundredths = if bold {
        hundredths * 112 / 100
    } else {
        hundredths
    };
    (hundredths * size).div_ceil(100)
}

/// A text of font size 12 in lines no wider than this, broken between words; a word that is wider has a line of its own.
#[cfg(feature = "visits")]
pub fn wrapped(text: &str, width: usize) -> Vec<String> {
    let mut lines: Vec<String> = Vec::new();
    for word in text.split(' ') {
        match lines.last_mut() {
            Some(line) if text_width(&format!("{line} {word}"), 12, false) <= width => {
                *line += &format!(" {word}");
            }
            _ => lines.push(word.to_string()),
        }
    }
    lines
}

/// In hundredths of the font size, as in DejaVu Sans, which is wider than most.
fn letter_width(letter: char) -> usize {
    match letter {
        'i' | 'j' | 'l' | 'I' | '.' | ',' | ':' | ';' | '\'' | '|' | ' ' | '!' => 34,
        'f' | 'r' | 't' | '(' | ')' | '-' | '/' | '"' | '*' => 50,
        'm' | 'w' | 'M' | 'W' | '@' | '%' => 100,
        'A'..='Z' => 80,
        letter if letter.is_ascii() => 65,
        _ => 110,
    }
}

#[cfg(test)]
mod tests {
    use super::*;

    #[test]
    fn text_is_escaped() {
        assert_eq!(escaped("a<b>&\u{1}"), "a&lt;b&gt;&amp;?");
    }

    #[test]
    fn wider_text_takes_more() {
        assert!(text_width("mm", 12, false) > text_width("il", 12, false));
        assert!(text_width("mm", 12, true) > text_width("mm", 12, false));
        assert_eq!(text_width("", 12, true), 0);
    }

    #[cfg(feature = "visits")]
    #[test]
    fn long_text_is_broken_and_whole() {
        let text = "3, 5, 7 to 16, an_exceedingly_long_name, 20";
        let lines = wrapped(text, 60);
        assert_eq!(lines.join(" "), text);
        assert_eq!(lines.len(), 4, "{lines:?}");
        let long = |line: &&String| text_width(line, 12, false) > 60;
        assert_eq!(lines.iter().filter(long).count(), 1);
    }
}

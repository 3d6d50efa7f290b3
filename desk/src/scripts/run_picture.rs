//! The references at the end of a run as a picture.

use crate::names::Names;
use crate::scripts::callers::{all_made, callers};
use crate::scripts::follow::Run;
use crate::scripts::run_plan::{Leaf, Node, Plan};
use crate::scripts::run_tree::forest;
use crate::scripts::run_words::{Chip, Chips, Look, Writer, BETWEEN, CHIPS, LINE, OWN, PAD, SIDE};
use crate::svg::{text_width, Canvas, MARGIN};
use pilgonca::Refusal;

/// Between two columns.
const GAP: usize = 48;
/// The room for the word that there is no chip.
const NOTHING: usize = 44;
const NOTE: &str =
    "A row is a reference, or several alike: who holds it, what its holder can do with which method, and what it leads to.";

/// The left edge and the width of each column.
struct Columns {
    /// The texts of a row.
    texts: [(usize, usize); 3],
    chips: (usize, usize),
    /// From the objects' on.
    nodes: Vec<(usize, usize)>,
    right: usize,
}

impl Columns {
    fn of(plan: &Plan) -> Columns {
        let mut left = MARGIN;
        let mut next = |width: usize, gap: usize| {
            let column = (left, width);
            left += width + gap;
            column
        };
        let texts = [0, 1, 2].map(|index| {
            let widths = plan.leaves.iter().map(|leaf| leaf.words.widths()[index]);
            next(widths.max().unwrap_or(0) + 2 * SIDE, 0)
        });
        let chips = plan.leaves.iter().map(|leaf| leaf.words.chips.width());
        let chips = next(chips.max().unwrap_or(0).max(NOTHING) + 2 * SIDE, GAP);
        let last = plan.nodes.iter().map(|node| node.column).max().unwrap_or(0);
        let mut nodes = vec![(0, 0); last + 1];
        for column in (0..=last).rev() {
            let there = plan.nodes.iter().filter(|node| node.column == column);
            let widths = there.map(|node| node.words.width());
            nodes[column] = next(widths.max().unwrap_or(0) + 2 * SIDE, GAP);
        }
        Columns {
            texts,
            chips,
            nodes,
            right: left - GAP,
        }
    }

    /// The edges of a row.
    fn row(&self) -> (usize, usize) {
        (self.texts[0].0, self.chips.0 + self.chips.1)
    }
}

/// The picture of a run, with a title.
pub fn picture(title: &str, run: &Run, names: &Names) -> Result<String, Refusal> {
    let sheet = &run.visit.sheet();
    let plan = Plan::of(&forest(run)?, &Writer { sheet, names });
    let columns = Columns::of(&plan);
    let mut canvas = Canvas::titled(title, NOTE);
    if plan.leaves.is_empty() {
        canvas.text("", (MARGIN, plan.bottom), "No object was made.");
    }
    for leaf in &plan.leaves {
        draw_leaf(&mut canvas, leaf, &columns);
        let start = (columns.row().1, leaf.y);
        way(&mut canvas, start, &plan.nodes[leaf.node], &columns);
    }
    for node in &plan.nodes {
        let behind = node.behind.map(|behind| &plan.nodes[behind]);
        draw_node(&mut canvas, node, behind, &columns);
    }
    let (legend_width, bottom) = legend(&mut canvas, plan.bottom + 16);
    let (used_width, bottom) = used_up(&mut canvas, bottom, run, names);
    let right = columns.right.max(MARGIN + legend_width.max(used_width));
    Ok(canvas.finish(right, bottom))
}

/// A line for each subject that can call nothing any more, whatever its cells let it call; how wide that is, and where it ends.
fn used_up(canvas: &mut Canvas, top: usize, run: &Run, names: &Names) -> (usize, usize) {
    let (mut width, mut y) = (0, top);
    let callers = callers(&run.visit).into_iter();
    for caller in callers.filter(|caller| caller.left() == 0) {
        let words = format!("{}: none is left", all_made(caller.subject, names));
        canvas.text("strong", (MARGIN, y + 13), &words);
        width = width.max(text_width(&words, 12, true));
        y += LINE + PAD;
    }
    (width, y)
}

fn draw_leaf(canvas: &mut Canvas, leaf: &Leaf, columns: &Columns) {
    let Leaf {
        words, y, height, ..
    } = leaf;
    let ((left, right), top) = (columns.row(), y - height / 2);
    canvas.told(&words.tooltip, |canvas| {
        let class = if words.own { "cell owned" } else { "cell" };
        canvas.rect(class, (left, top), (right - left, *height));
        for (column, (text, (left, _))) in words.texts.iter().zip(columns.texts).enumerate() {
            let first = y - text.len() * LINE / 2;
            if column > 0 {
                canvas.line("grid", (left, top + 4), (left, top + height - 4));
            }
            if column == 0 && words.own {
                canvas.diamond("own", (left + SIDE + 6, *y), 6);
            }
            let (class, own) = match column {
                0 => ("strong", if words.own { OWN } else { 0 }),
                _ => ("", 0),
            };
            lines(canvas, class, (left + SIDE + own, first), text);
        }
    });
    let left = columns.chips.0;
    canvas.line("grid", (left, top + 4), (left, top + height - 4));
    if words.chips.lines.is_empty() {
        canvas.text("note", (left + SIDE, y + 4), "nothing");
    }
    chips(canvas, (left, y - words.chips.height() / 2), &words.chips);
}

fn draw_node(canvas: &mut Canvas, node: &Node, behind: Option<&Node>, columns: &Columns) {
    let (left, width) = columns.nodes[node.column];
    let Node {
        words, y, height, ..
    } = node;
    let top = y - height / 2;
    canvas.told(&words.tooltip, |canvas| {
        let class = if behind.is_some() {
            "adapter"
        } else {
            "object"
        };
        canvas.rect(class, (left, top), (width, *height));
        canvas.text("strong", (left + SIDE, top + PAD + 12), &words.title);
        lines(canvas, "", (left + SIDE, top + PAD + LINE), &words.lines);
    });
    let below = top + height - PAD - words.chips.height();
    chips(canvas, (left, below), &words.chips);
    match behind {
        Some(behind) if behind.column == node.column => {
            up(
                canvas,
                (left + width / 2, top),
                behind.y + behind.height / 2,
            );
        }
        Some(behind) => way(canvas, (left + width, *y), behind, columns),
        None => {}
    }
}

/// Lines of text from a corner on.
fn lines(canvas: &mut Canvas, class: &str, (left, top): (usize, usize), lines: &[String]) {
    for (index, line) in lines.iter().enumerate() {
        canvas.text(class, (left, top + index * LINE + 12), line);
    }
}

/// Chips from a corner on.
fn chips(canvas: &mut Canvas, (left, top): (usize, usize), chips: &Chips) {
    for (index, line) in chips.lines.iter().enumerate() {
        let mut x = left + SIDE;
        for one in line {
            canvas.told(&one.tooltip, |canvas| {
                chip(canvas, (x, top + index * CHIPS + 2), one)
            });
            x += one.width() + BETWEEN;
        }
    }
}

fn chip(canvas: &mut Canvas, (left, top): (usize, usize), chip: &Chip) {
    let (class, text) = match chip.look {
        Look::Call => ("call", "chip middle light"),
        Look::Come => ("come", "chip middle strong"),
        Look::Open => ("open", "chip middle strong"),
        Look::Only => ("only", "chip middle note"),
    };
    let width = chip.width();
    canvas.rect(class, (left, top), (width, 18));
    canvas.text(text, (left + width / 2, top + 13), &chip.name);
}

/// An arrow into a place from the right edge of what leads to it. It turns in the gap in front of the place's column.
fn way(canvas: &mut Canvas, (x, y): (usize, usize), to: &Node, columns: &Columns) {
    let left = columns.nodes[to.column].0;
    let (turn, tip, end) = (left - GAP / 2, left - 8, to.y);
    let (back, above, below) = (left - 9, end - 4, end + 4);
    canvas.add(format_args!(
        "<path class=\"way\" d=\"M {x} {y} H {turn} V {end} H {tip}\"/>"
    ));
    canvas.add(format_args!(
        "<path class=\"tip\" d=\"M {back} {above} L {left} {end} L {back} {below} Z\"/>"
    ));
}

/// An arrow to the bottom of what is above.
fn up(canvas: &mut Canvas, (x, y): (usize, usize), bottom: usize) {
    let (tip, back, before, behind) = (bottom + 8, bottom + 9, x - 4, x + 4);
    canvas.add(format_args!(
        "<path class=\"way\" d=\"M {x} {y} V {tip}\"/>"
    ));
    canvas.add(format_args!(
        "<path class=\"tip\" d=\"M {before} {back} L {x} {bottom} L {behind} {back} Z\"/>"
    ));
}

/// The classes of boxes and marks, and what they mean.
const MEANINGS: [(&str, &str); 8] = [
    ("cell", "references in a subject's hands: their cells, the type that they are held as, and the methods that they offer"),
    ("cell owned", "the same, held as a type with own: only the owner of the object can hold it so"),
    ("call", "avail: the holder can call the method; in an adapter, it is let through"),
    ("come", "the holder can come to call it, by handing the reference to itself as another type: optional, or for the owner to take back"),
    ("open", "whether the holder can come to call it is not settled"),
    ("only", "no way to call it was found: no type lets it be called, or there is no room for further ways"),
    ("adapter", "an adapter, which the core put in front of something: nothing passes but the methods in it"),
    ("object", "an object, with the class it was made of and its owner"),
];

/// The meaning of what the picture has; how wide that is, and where it ends.
fn legend(canvas: &mut Canvas, top: usize) -> (usize, usize) {
    let (mut width, mut y) = (0, top);
    for (class, words) in MEANINGS
        .into_iter()
        .filter(|(class, _)| canvas.has(class))
        .collect::<Vec<_>>()
    {
        canvas.rect(class, (MARGIN, y), (36, 18));
        if class == "cell owned" {
            canvas.diamond("own", (MARGIN + 18, y + 9), 6);
        }
        canvas.text("", (MARGIN + 48, y + 13), words);
        width = width.max(48 + text_width(words, 12, false));
        y += 26;
    }
    (width, y)
}

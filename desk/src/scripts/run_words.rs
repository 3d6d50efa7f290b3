//! What stands in the boxes of a run's picture: words, and a chip for each method.

use crate::described::Described;
use crate::names::{Kind, Names};
use crate::reach::Power;
use crate::scripts::run_tree::{Row, Tree};
use crate::svg::{text_width, wrapped};
use crate::words::{listed, plural, ranges};
use pilgonca::{MethodInfo, PlaceKind, Sheet, Type};

/// From one line of words to the next, and of chips.
pub const LINE: usize = 16;
pub const CHIPS: usize = 22;
/// The space in a box on the left and right, and above and below.
pub const SIDE: usize = 12;
pub const PAD: usize = 4;
/// What the mark of own takes of a line.
pub const OWN: usize = 20;
/// Between two chips.
pub const BETWEEN: usize = 6;
/// Lines and rows of chips are broken here; those of a long text are longer.
const WIDTH: usize = 190;
const WIDE: usize = 340;

/// How a method stands with the holder of a cell. An adapter lets through what it has.
#[derive(Clone, Copy, PartialEq, Eq, PartialOrd, Ord, Debug)]
pub enum Look {
    Call,
    Come,
    /// Whether the holder can come to call it is not settled.
    Open,
    Only,
}

/// A method by its name, or some by their numbers.
pub struct Chip {
    pub look: Look,
    pub name: String,
    pub tooltip: String,
}

impl Chip {
    pub fn width(&self) -> usize {
        text_width(&self.name, 11, true) + 12
    }
}

/// Chips in lines.
pub struct Chips {
    pub lines: Vec<Vec<Chip>>,
}

impl Chips {
    fn of(chips: impl Iterator<Item = Chip>) -> Chips {
        let mut lines: Vec<Vec<Chip>> = Vec::new();
        for chip in chips {
            match lines.last_mut() {
                Some(line) if row_width(line) + BETWEEN + chip.width() <= WIDTH => line.push(chip),
                _ => lines.push(vec![chip]),
            }
        }
        Chips { lines }
    }

    pub fn width(&self) -> usize {
        let widths = self.lines.iter().map(|line| row_width(line));
        widths.max().unwrap_or(0)
    }

    pub fn height(&self) -> usize {
        self.lines.len() * CHIPS
    }
}

fn row_width(chips: &[Chip]) -> usize {
    let widths = chips.iter().map(|chip| chip.width() + BETWEEN);
    widths.sum::<usize>().saturating_sub(BETWEEN)
}

/// What a row says.
pub struct RowWords {
    /// The holder, the cells, and the type that they are held as; each in lines.
    pub texts: [Vec<String>; 3],
    pub chips: Chips,
    /// Whether that type has own.
    pub own: bool,
    pub tooltip: String,
}

impl RowWords {
    /// The widths of the three texts.
    pub fn widths(&self) -> [usize; 3] {
        let [holder, cells, type_] = [0, 1, 2].map(|index| width(&self.texts[index], index == 0));
        [holder + if self.own { OWN } else { 0 }, cells, type_]
    }

    pub fn height(&self) -> usize {
        let lines = self.texts.iter().map(Vec::len).max().unwrap_or(0);
        (lines * LINE).max(self.chips.height()) + 2 * PAD
    }
}

/// What the box of a place says.
pub struct PlaceWords {
    pub title: String,
    pub lines: Vec<String>,
    pub chips: Chips,
    pub tooltip: String,
}

impl PlaceWords {
    pub fn width(&self) -> usize {
        let title = text_width(&self.title, 12, true);
        title.max(width(&self.lines, false)).max(self.chips.width())
    }

    pub fn height(&self) -> usize {
        (1 + self.lines.len()) * LINE + self.chips.height() + 2 * PAD
    }
}

fn width(lines: &[String], bold: bool) -> usize {
    let widths = lines.iter().map(|line| text_width(line, 12, bold));
    widths.max().unwrap_or(0)
}

/// A text in lines; it is long if it took more of them than this.
fn in_lines(text: &str, most: usize) -> Vec<String> {
    let lines = wrapped(text, WIDTH);
    if lines.len() > most {
        return wrapped(text, WIDE);
    }
    lines
}

/// Finds the words, with names.
pub struct Writer<'a> {
    pub sheet: &'a Sheet,
    pub names: &'a Names,
}

impl Writer<'_> {
    /// Cells that lead to so many places.
    pub fn row(&self, row: &Row, places: usize) -> RowWords {
        let type_ = match Described::of(self.sheet, row.type_) {
            Described::OfSheet(number) => {
                format!("type {}", self.names.label(Kind::Type, number.0))
            }
            derived => derived.words(self.names),
        };
        let cells = match &row.cells[..] {
            [(number, _)] => format!("cell {number}"),
            cells => {
                let count = plural(cells.len(), "cell");
                let numbers = numbers(cells.iter().map(|cell| cell.0));
                let each = match places {
                    1 => String::new(),
                    _ => format!(", {} to each place", cells.len() / places),
                };
                format!("{count}{each}: {numbers}")
            }
        };
        let leads = row.cells.iter();
        let leads = leads.map(|(cell, place)| format!("cell {cell} leads to place {place}"));
        RowWords {
            texts: [
                vec![self.names.words(Kind::Subject, row.holder.0)],
                in_lines(&cells, 1),
                in_lines(&format!("as {type_}"), 3),
            ],
            chips: Chips::of(self.methods(&row.powers).into_iter()),
            own: self.sheet.type_info(row.type_).is_some_and(|info| info.own),
            tooltip: leads.collect::<Vec<String>>().join(", "),
        }
    }

    /// Chips for the methods that the holder of a cell has to do with: what it can call first.
    fn methods(&self, powers: &[Option<Power>]) -> Vec<Chip> {
        let methods = powers.iter().enumerate();
        let methods = methods.filter_map(|(method, power)| {
            let power = power.as_ref()?;
            let look = match power {
                Power::Now => Look::Call,
                Power::Alone(_) | Power::Once(..) => Look::Come,
                Power::Unsettled(_) => Look::Open,
                Power::NoRoom(_) | Power::Never => Look::Only,
            };
            Some((look, power.words(self.names), method))
        });
        let mut methods: Vec<(Look, String, usize)> = methods.collect();
        methods.sort();
        let alike = |one: &(Look, String, usize), next: &(Look, String, usize)| {
            (one.0, &one.1) == (next.0, &next.1)
        };
        let alike = methods.chunk_by(alike);
        let chips = alike.flat_map(|alike| {
            let numbers: Vec<usize> = alike.iter().map(|(_, _, method)| *method).collect();
            self.chips(alike[0].0, &numbers, &alike[0].1)
        });
        chips.collect()
    }

    /// A chip for each method that has a name, and for those without one that follow each other.
    fn chips(&self, look: Look, methods: &[usize], words: &str) -> Vec<Chip> {
        let named = |method: usize| self.names.name(Kind::Method, method);
        let together = |one: &usize, next: &usize| {
            *next == *one + 1 && named(*one).is_none() && named(*next).is_none()
        };
        let chip = |methods: &[usize]| {
            let name = named(methods[0]).map(str::to_string);
            let numbers = || ranges(&methods.iter().map(|one| *one as i64).collect::<Vec<i64>>());
            let words_of = methods.iter();
            let words_of = words_of.map(|one| self.names.words(Kind::Method, *one as i64));
            Chip {
                look,
                name: name.unwrap_or_else(numbers),
                tooltip: format!("{}: {words}", listed(words_of)),
            }
        };
        methods.chunk_by(together).map(chip).collect()
    }

    /// Places in front of so many.
    pub fn place(&self, tree: &Tree, behind: usize) -> PlaceWords {
        let (kind, text, chips) = match tree.kind {
            PlaceKind::Object { class, owner } => {
                let class = self.names.label(Kind::Type, class.0);
                let owner = self.names.label(Kind::Subject, owner.0);
                let made = format!("class {class}, owner {owner}");
                ("object", Some(made), Vec::new())
            }
            PlaceKind::Adapter { closed, .. } => {
                let chips = self.chips(Look::Call, &through(self.sheet, closed), "let through");
                let nothing = chips.is_empty().then(|| "lets through nothing".to_string());
                ("adapter", nothing, chips)
            }
        };
        let (title, places) = alike(kind, tree, behind);
        let lines = places.iter().chain(&text);
        PlaceWords {
            title,
            lines: lines.flat_map(|text| in_lines(text, 6)).collect(),
            chips: Chips::of(chips.into_iter()),
            tooltip: self.stands(tree),
        }
    }

    /// What adapters are in front of, and what their type is.
    fn stands(&self, tree: &Tree) -> String {
        let PlaceKind::Adapter { closed, .. } = tree.kind else {
            return String::new();
        };
        let stands = tree.places.iter().filter_map(|(place, behind)| {
            Some(format!("place {place} is in front of place {}", (*behind)?))
        });
        let stands: Vec<String> = stands.collect();
        let type_ = Described::of(self.sheet, closed).words(self.names);
        format!("{}; of {type_}", stands.join(", "))
    }
}

/// The title of one place or several, in front of so many; of several, their numbers.
fn alike(kind: &str, tree: &Tree, behind: usize) -> (String, Option<String>) {
    let numbers = numbers(tree.places.iter().map(|place| place.0));
    let count = tree.places.len();
    if count == 1 {
        return (format!("{kind}, place {numbers}"), None);
    }
    let each = match behind {
        0 | 1 => String::new(),
        _ => format!(", {} in front of each", count / behind),
    };
    let title = format!("{} alike{each}", plural(count, kind));
    (title, Some(format!("places {numbers}")))
}

/// Numbers in words.
fn numbers(numbers: impl Iterator<Item = i64>) -> String {
    let mut numbers: Vec<i64> = numbers.collect();
    numbers.sort();
    ranges(&numbers)
}

/// The methods that an adapter of this type lets through.
fn through(sheet: &Sheet, closed: Type) -> Vec<usize> {
    let info = sheet.type_info(closed);
    let methods = info.map_or(Vec::new(), |info| info.methods);
    let methods = methods.into_iter().enumerate();
    let avail = methods.filter(|(_, method)| matches!(method, MethodInfo::Avail(_)));
    avail.map(|(number, _)| number).collect()
}

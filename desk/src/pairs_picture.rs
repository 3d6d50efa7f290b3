//! The pairs of a sheet's types as a picture: a mark for the strongest relation, told apart by shape as well as by colour, and beside them what each type says
//! of each method. Rows of types with own are marked otherwise, since there only the owner of the object counts (X1, X2).

use crate::names::{Kind, Names};
use crate::relation::{conclusion, Strongest, ALL, HEADING, OWN};
use crate::summary::kind;
use crate::svg::{text_width, Canvas, BELOW_TITLE, MARGIN};
use crate::words::listed;
use pilgonca::{MethodInfo, Pairs, Sheet, TypeInfo};

const NOTE: &str = "Row T: the type that a reference is to become. Column S: the type that it has.";
/// From more types on, squares are smaller, every fifth line is stronger, and numbers stand on the far sides too.
const MANY: usize = 12;
/// The room for those numbers.
const FAR: usize = 28;
/// The column that says what a type is.
const KIND: usize = 56;
/// The column of a method.
const METHOD: usize = 16;
/// The least room for labels: the corner between them has words too.
const CORNER: usize = 32;
/// A square of the legend, and from one line of it to the next.
const SAMPLE: usize = 24;
const LINE: usize = 28;

const METHODS: &str = "What a type says of each method:";
const STATES: [&str; 4] = ["avail", "optional", "unavail", "denied"];

fn word(method: &MethodInfo) -> &'static str {
    let index = match method {
        MethodInfo::Avail(_) => 0,
        MethodInfo::Optional(_) => 1,
        MethodInfo::Unavail => 2,
        MethodInfo::Denied => 3,
    };
    STATES[index]
}

/// Where things stand. Rows and columns are types by number.
struct Plan<'a> {
    names: &'a Names,
    types: Vec<TypeInfo>,
    /// The side of one square.
    square: usize,
    /// Where the methods begin, and how many there are.
    methods: (usize, usize),
    /// The corner of the grid.
    left: usize,
    top: usize,
}

/// The picture of a sheet, with a title.
pub fn picture(title: &str, sheet: &Sheet, names: &Names) -> String {
    let plan = Plan::of(sheet, names);
    let mut canvas = Canvas::titled(title, NOTE);
    grid(&mut canvas, &plan);
    labels(&mut canvas, &plan);
    if plan.many() {
        far_labels(&mut canvas, &plan);
    }
    marks(&mut canvas, &plan, &sheet.pairs());
    let far = if plan.many() { FAR } else { 0 };
    let (legend_width, bottom) = legend(&mut canvas, plan.top + plan.side() + far + 36);
    let right = plan.left + plan.side() + far;
    canvas.finish(right.max(MARGIN + legend_width), bottom)
}

impl Plan<'_> {
    fn of<'a>(sheet: &Sheet, names: &'a Names) -> Plan<'a> {
        let types: Vec<TypeInfo> = sheet.types().collect();
        let room = |kind: Kind, count: usize| {
            let labels = (0..count).map(|number| names.label(kind, number as i64));
            let widths = labels.map(|label| text_width(&label, 12, false));
            widths.max().unwrap_or(0).max(CORNER) + 8
        };
        let (of_types, of_methods) = (
            room(Kind::Type, types.len()),
            room(Kind::Method, sheet.methods()),
        );
        let methods = (MARGIN + KIND + of_types, sheet.methods());
        Plan {
            names,
            square: if types.len() > MANY { 18 } else { 32 },
            types,
            methods,
            left: methods.0 + sheet.methods() * METHOD + CORNER,
            top: BELOW_TITLE + of_types.max(of_methods),
        }
    }

    fn many(&self) -> bool {
        self.types.len() > MANY
    }

    fn side(&self) -> usize {
        self.types.len() * self.square
    }

    /// The middles of a column and a row.
    fn middle(&self, column: usize, row: usize) -> (usize, usize) {
        let half = self.square / 2;
        (
            self.left + column * self.square + half,
            self.top + row * self.square + half,
        )
    }
}

fn grid(canvas: &mut Canvas, plan: &Plan) {
    let Plan { left, top, .. } = *plan;
    let (square, side, count) = (plan.square, plan.side(), plan.types.len());
    for (index, at) in (0..count).map(|index| (index, index * square)) {
        if plan.types[index].own {
            canvas.rect("stripe", (MARGIN, top + at), (left + side - MARGIN, square));
        }
        canvas.rect("shade", (left + at, top + at), (square, square));
    }
    for index in 0..=count {
        let strong = index == 0 || index == count || plan.many() && index % 5 == 0;
        let class = if strong { "edge" } else { "grid" };
        let at = index * square;
        canvas.line(class, (left, top + at), (left + side, top + at));
        canvas.line(class, (left + at, top), (left + at, top + side));
    }
}

fn labels(canvas: &mut Canvas, plan: &Plan) {
    let Plan {
        left, top, methods, ..
    } = *plan;
    canvas.text("strong right", (left - 8, top - 26), "S →");
    canvas.text("strong right", (methods.0 - 8, top - 8), "T ↓");
    for method in 0..methods.1 {
        let label = plan.names.label(Kind::Method, method as i64);
        canvas.upward(
            (methods.0 + method * METHOD + METHOD / 2 + 4, top - 8),
            &label,
        );
    }
    for (index, info) in plan.types.iter().enumerate() {
        let label = plan.names.label(Kind::Type, info.number.0);
        canvas.upward((plan.middle(index, index).0 + 4, top - 8), &label);
        canvas.told(&shows(info, plan.names), |canvas| {
            row_label(canvas, plan, index, &label)
        });
    }
}

/// What a type is, its name, and what it says of each method.
fn row_label(canvas: &mut Canvas, plan: &Plan, row: usize, label: &str) {
    let (info, y) = (&plan.types[row], plan.middle(0, row).1);
    let own = if info.own { 20 } else { 0 };
    if info.own {
        canvas.diamond("own", (MARGIN + 8, y), 6);
    }
    canvas.text("note", (MARGIN + own, y + 4), kind(info));
    canvas.text("right", (plan.methods.0 - 8, y + 4), label);
    for (index, method) in info.methods.iter().enumerate() {
        let x = plan.methods.0 + index * METHOD + METHOD / 2;
        state(canvas, word(method), (x, y));
    }
}

/// The mark for what a type says of a method.
fn state(canvas: &mut Canvas, state: &str, (x, y): (usize, usize)) {
    let (from, to) = ((x - 4, y - 4), (x + 4, y + 4));
    match state {
        "avail" => canvas.rect("call", from, (8, 8)),
        "optional" => canvas.rect("come", from, (8, 8)),
        "unavail" => {
            canvas.line("free", from, to);
            canvas.line("free", (from.0, to.1), (to.0, from.1));
        }
        _ => {}
    }
}

/// What a type says of every method.
fn shows(info: &TypeInfo, names: &Names) -> String {
    let states = STATES.iter().filter_map(|state| {
        let methods = info.methods.iter().enumerate();
        let methods = methods.filter(|(_, method)| word(method) == *state);
        let methods = methods.map(|(number, _)| names.words(Kind::Method, number as i64));
        let methods = listed(methods);
        (!methods.is_empty()).then(|| format!("; {state}: {methods}"))
    });
    let words = names.words(Kind::Type, info.number.0);
    format!("{words}, {}{}", kind(info), states.collect::<String>())
}

fn far_labels(canvas: &mut Canvas, plan: &Plan) {
    let (right, bottom) = (plan.left + plan.side(), plan.top + plan.side());
    for index in 0..plan.types.len() {
        let (x, y) = plan.middle(index, index);
        let number = index.to_string();
        canvas.text("note", (right + 8, y + 4), &number);
        canvas.text("note middle", (x, bottom + 18), &number);
    }
}

fn marks(canvas: &mut Canvas, plan: &Plan, pairs: &Pairs) {
    for (row, t) in plan.types.iter().enumerate() {
        for (column, s) in plan.types.iter().enumerate() {
            let answers = pairs.at(t.number, s.number);
            let strongest = Strongest::of(&answers);
            let words = conclusion(t, s, &answers, plan.names);
            let middle = plan.middle(column, row);
            canvas.told(&format!("{}: {words}", strongest.name()), |canvas| {
                let half = plan.square / 2;
                let corner = (middle.0 - half, middle.1 - half);
                canvas.rect("pair", corner, (plan.square, plan.square));
                match strongest {
                    Strongest::None => {}
                    _ if t.own => canvas.diamond("own", middle, 6),
                    _ => mark(canvas, strongest, middle),
                }
            });
        }
    }
}

fn mark(canvas: &mut Canvas, strongest: Strongest, (x, y): (usize, usize)) {
    match strongest {
        Strongest::Subtype => canvas.rect("subtype", (x - 6, y - 6), (12, 12)),
        Strongest::Strict => canvas.circle("strict", (x, y), 6),
        Strongest::Loose => canvas.circle("loose", (x, y), 5),
        Strongest::Free => canvas.line("free", (x - 4, y), (x + 4, y)),
        Strongest::None => {}
    }
}

/// The meaning of each mark; how wide it is, and where it ends.
fn legend(canvas: &mut Canvas, top: usize) -> (usize, usize) {
    canvas.text("strong", (MARGIN, top), HEADING);
    let mut width = text_width(HEADING, 12, true).max(116 + text_width(OWN, 12, false));
    let own = [("own", OWN)].into_iter();
    let rows = ALL.into_iter().map(|one| (one.name(), one.words()));
    let mut y = top;
    for (name, words) in rows.chain(own) {
        y += LINE;
        let middle = (MARGIN + SAMPLE / 2, y);
        canvas.rect("blank", (MARGIN, y - SAMPLE / 2), (SAMPLE, SAMPLE));
        match ALL.into_iter().find(|one| one.name() == name) {
            Some(one) => mark(canvas, one, middle),
            None => canvas.diamond("own", middle, 6),
        }
        canvas.text("strong", (MARGIN + 44, y + 4), name);
        canvas.text("", (MARGIN + 116, y + 4), words);
        width = width.max(116 + text_width(words, 12, false));
    }
    let (states_width, end) = legend_of_states(canvas, y + LINE + 16);
    (width.max(states_width), end)
}

/// The same for what a type says of a method.
fn legend_of_states(canvas: &mut Canvas, y: usize) -> (usize, usize) {
    canvas.text("strong", (MARGIN, y), METHODS);
    let mut x = MARGIN + text_width(METHODS, 12, true) + 16;
    for one in STATES {
        canvas.rect("blank", (x, y - 16), (SAMPLE, SAMPLE));
        state(canvas, one, (x + SAMPLE / 2, y - 4));
        canvas.text("", (x + SAMPLE + 8, y), one);
        x += SAMPLE + text_width(one, 12, false) + 32;
    }
    (x - MARGIN, y + 8)
}

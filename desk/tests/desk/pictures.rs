//! The pictures of the guide are what desk draws now, every picture is well formed, with all of it inside, and large ones stay in bounds.

use crate::drawing::{apart, attribute, body, boxes, content, drawn, drawn_run, size, sound, ways};
use crate::files::{accepted, read, run, with_file, NAMES, SCRIPT, SHEET};
use desk::reach::Power;
use desk::scripts::follow::{follow, Run};
use reference::generators::{generate, on_tiny, Profile};

/// A script on Case P's sheet with 256 cells: every subject holds some as every type that it can.
fn cells_256() -> Vec<u8> {
    let mut script = read(SHEET);
    script.extend(b"do=new 0 1 4\n");
    for index in 0..255 {
        let to = [2, 3, 5, 1, 4][index / 3 % if index % 3 == 0 { 5 } else { 4 }];
        script.extend(format!("do=move 0 0 {} {to}\n", index % 3).bytes());
    }
    script
}

/// A sheet of 16 methods: type 1 is a class with all of them. Those above k are avail in type 2 + 2k and in the next; the others are denied in the first of
/// these and optional in the next.
pub fn sixteen() -> String {
    let type_ = |number: usize, method: &dyn Fn(usize) -> &'static str| {
        let methods: String = (0..16).map(|one| format!("m={}\n", method(one))).collect();
        format!("type={number}\nrep=ref\ncat=0\nown=no\n{methods}")
    };
    let above = |last: usize, rest: &'static str| {
        move |one: usize| if one > last { "avail()-" } else { rest }
    };
    let head = "guide=1\nsubjects=4\nmethods=16\ncats=0\ntypes=34\ntype=0\nrep=w32\ncat=0\n";
    let mut sheet = head.to_string() + &type_(1, &|_| "avail()-");
    for last in 0..16 {
        sheet += &type_(2 + 2 * last, &above(last, "denied"));
        sheet += &type_(3 + 2 * last, &above(last, "optional()-"));
    }
    sheet + "end=sheet\n"
}

/// An object, and chains of so many adapters in front of it: the first of a chain takes away method 0, the next method 1. Each chain is in the hands of the
/// next of so many subjects.
fn chains(lengths: &[usize], subjects: usize) -> Vec<u8> {
    let mut script = sixteen() + "do=new 0 1 1\n";
    let mut cells = 1;
    for (number, length) in lengths.iter().enumerate() {
        let (mut holder, mut cell, to) = (0, 0, 1 + number % subjects);
        for hidden in 0..*length {
            let types = [2 + 2 * hidden, 3 + 2 * hidden];
            script += &format!("do=move {holder} {cell} {to} {}\n", types[0]);
            script += &format!("do=move {to} {cells} {to} {}\n", types[1]);
            (holder, cell, cells) = (to, cells + 1, cells + 2);
        }
    }
    script.into_bytes()
}

/// 40 adapters, no two alike.
fn forty() -> Vec<u8> {
    chains(&[16, 16, 8], 3)
}

/// 40 adapters in front of one object, alike but for who holds them.
fn forty_alike() -> Vec<u8> {
    chains(&[1; 40], 2)
}

/// To renew one: the command with `--svg` and its path.
#[test]
fn the_pictures_of_the_guide_are_true() {
    for (command, file, path) in [
        ("pairs", SHEET, "docs/pictures/pairs.svg"),
        ("run", SCRIPT, "docs/pictures/run.svg"),
    ] {
        let kept = String::from_utf8(read(path)).expect("UTF-8");
        assert!(
            kept == drawn(&[command, file, "--names", NAMES]),
            "{path} is out of date"
        );
    }
}

/// Every tiny sheet with requests, full states, and many references.
fn scripts() -> impl Iterator<Item = Vec<u8>> {
    let full = (0..6).map(|seed| generate(seed, Profile::Full));
    let tiny = on_tiny(0).into_iter();
    tiny.chain(full)
        .chain([cells_256(), forty(), forty_alike()])
}

#[test]
fn pictures_are_sound() {
    for script in scripts() {
        let picture = drawn_run("full", &script);
        sound(&picture);
        apart(&picture);
    }
    sound(&drawn(&["pairs", "examples/types-48.sheet"]));
    sound(&drawn(&["run", SHEET]));
    let case_p = drawn(&["run", SCRIPT]);
    assert_eq!(
        (boxes(&case_p).len(), ways(&case_p).len()),
        (3 + 2 + 4, 3 + 1)
    );
}

/// A row of a run's picture: its cells and their places by the tooltip, its words, and its chips, each with a class and the numbers of its methods.
struct Row {
    cells: Vec<(usize, usize)>,
    words: String,
    chips: Vec<(String, Vec<usize>)>,
}

/// The numbers in a text.
fn numbers(text: &str) -> Vec<usize> {
    let words = text.split(|letter: char| !letter.is_ascii_digit());
    words.filter_map(|word| word.parse().ok()).collect()
}

/// The class of a rectangle.
fn class(element: &str) -> &str {
    let class = element.strip_prefix("<rect class=\"").expect("a rectangle");
    class.split('"').next().expect("a class")
}

/// The rows of a picture whose methods have no names.
fn rows(picture: &str) -> Vec<Row> {
    let mut rows: Vec<Row> = Vec::new();
    let mut lines = body(picture).peekable();
    while let Some(line) = lines.next() {
        let tooltip = line.strip_prefix("<g><title>").unwrap_or("");
        if tooltip.starts_with("cell ") {
            let cells = numbers(tooltip);
            let inside = lines.by_ref().take_while(|line| *line != "</g>");
            let texts = inside.filter(|line| line.starts_with("<text")).map(content);
            rows.push(Row {
                cells: cells.chunks(2).map(|pair| (pair[0], pair[1])).collect(),
                words: texts.collect::<Vec<&str>>().join(" "),
                chips: Vec::new(),
            });
        } else if tooltip.starts_with("place ") {
            break;
        } else if let (Some((methods, _)), Some(row)) = (tooltip.split_once(": "), rows.last_mut())
        {
            let class = class(lines.peek().expect("a chip")).to_string();
            row.chips.push((class, numbers(methods)));
        }
    }
    rows
}

/// The numbers that a list as `3, 5, 7 to 16` stands for.
fn listed(list: &str) -> Vec<usize> {
    let parts = list.split(", ").map(numbers);
    parts
        .flat_map(|part| part[0]..=part[part.len() - 1])
        .collect()
}

/// The chips that the core's word on a cell comes to, by class.
fn chips(powers: &[Option<Power>]) -> Vec<(&'static str, usize)> {
    let class = |power: &Power| match power {
        Power::Now => "call",
        Power::Alone(_) | Power::Once(..) => "come",
        Power::Unsettled(_) => "open",
        Power::NoRoom(_) | Power::Never => "only",
    };
    let methods = powers.iter().enumerate();
    methods
        .filter_map(|(method, power)| Some((class(power.as_ref()?), method)))
        .collect()
}

/// Every cell stands in one row, with its holder, type and place, and a chip for each method as the audit tells it.
fn rows_are_true(picture: &str, run: &Run) {
    let rows = rows(picture);
    let powers = run.powers().expect("powers");
    let told: usize = rows.iter().map(|row| row.cells.len()).sum();
    assert_eq!(told, run.visit.cells().count());
    for (cell, powers) in run.visit.cells().zip(&powers) {
        let number = (cell.number.0 as usize, cell.place.0 as usize);
        let row = rows
            .iter()
            .find(|row| row.cells.contains(&number))
            .expect("a row");
        assert!(
            row.words.starts_with(&format!("subject {} ", cell.holder)),
            "{}",
            row.words
        );
        let (_, list) = row.words.split_once("cell").expect("cells");
        let (list, type_) = list.split_once(" as ").expect("a type");
        let list = list.split_once(": ").map_or(list, |(_, list)| list);
        assert!(listed(list).contains(&number.0), "{}", row.words);
        if run
            .visit
            .type_info(cell.type_)
            .is_some_and(|info| info.key.is_none())
        {
            assert_eq!(type_, format!("type {}", cell.type_));
        }
        let drawn = row.chips.iter();
        let drawn =
            drawn.flat_map(|(class, methods)| methods.iter().map(|one| (class.as_str(), *one)));
        let mut drawn: Vec<(&str, usize)> = drawn.collect();
        drawn.sort_by_key(|(_, method)| *method);
        assert_eq!(drawn, chips(powers), "{number:?}");
    }
}

/// No number and no method is lost where rows are grouped.
#[test]
fn grouped_rows_tell_every_cell_and_method() {
    for script in scripts() {
        let run = follow(&script).unwrap_or_else(|_| panic!("a sheet"));
        rows_are_true(&drawn_run("grouped", &script), &run);
    }
}

/// 256 cells of three subjects and five types fit on a page.
#[test]
fn equal_rows_are_grouped() {
    let picture = drawn_run("cells", &cells_256());
    let rows = rows(&picture);
    assert!(rows.len() <= 16, "{}", rows.len());
    assert!(rows.iter().any(|row| row.words.contains(" 22 cells: ")));
    let (width, height) = size(&picture);
    assert!(width <= 1100 && height <= 1100, "{width} x {height}");
}

#[test]
fn deep_nesting_stays_narrow() {
    let picture = drawn_run("forty", &forty());
    let adapters = body(&picture).filter(|line| line.contains(">adapter, place "));
    assert_eq!(adapters.count(), 40);
    let (width, height) = size(&picture);
    assert!(width <= 1000 && height <= 3500, "{width} x {height}");
    let chain = drawn_run("chain", &chains(&[15], 1));
    let (width, height) = size(&chain);
    assert!(width <= 850 && height <= 1500, "{width} x {height}");
}

/// Adapters that differ in numbers alone stand once, with all of their numbers.
#[test]
fn equal_adapters_are_grouped() {
    let picture = drawn_run("alike", &forty_alike());
    assert_eq!(
        body(&picture)
            .filter(|line| line.contains(">20 adapters alike<"))
            .count(),
        2
    );
    let places = body(&picture).filter(|line| line.starts_with("<g><title>place "));
    let mut places: Vec<usize> = places
        .flat_map(|line| numbers(line.split(';').next().unwrap_or("")))
        .collect();
    places.sort();
    let told: Vec<usize> = std::iter::repeat_n(0, 40).chain(1..=40).collect();
    assert_eq!(places, told, "each with the object behind it");
    let (width, height) = size(&picture);
    assert!(width <= 1150 && height <= 650, "{width} x {height}");
}

/// Objects too, with what is in front of them.
#[test]
fn equal_objects_are_grouped() {
    let one = "do=new 0 1 4\ndo=move 0 0 1 2\ndo=move 1 1 2 3\n";
    let mut script = read(SHEET);
    for index in 0..9 {
        let [first, second] = [3 * index, 3 * index + 1].map(|cell| cell.to_string());
        let one = one.replace("move 0 0", &format!("move 0 {first}"));
        script.extend(one.replace("move 1 1", &format!("move 1 {second}")).bytes());
    }
    let picture = drawn_run("objects", &script);
    for words in [
        ">9 objects alike<",
        ">9 adapters alike, 1 in front of each<",
        ">places 0, 2, 4, 6, 8, 10,",
        ">9 cells, 1 to each place: 0, 3, 6, 9, 12, 15,",
    ] {
        assert!(picture.contains(words), "{words}");
    }
    rows_are_true(
        &picture,
        &follow(&script).unwrap_or_else(|_| panic!("a sheet")),
    );
}

/// How bright a colour of the style is in grey, from 0 to 255.
fn grey(picture: &str, class: &str) -> usize {
    let rule = picture
        .split_once(&format!("\n.{class} {{ fill: #"))
        .expect("a rule")
        .1;
    let part = |at: usize| usize::from_str_radix(&rule[at..at + 2], 16).expect("a colour");
    (299 * part(0) + 587 * part(2) + 114 * part(4)) / 1000
}

/// Avail is dark and filled, optional is white with an edge, or with a broken one.
#[test]
fn optional_and_avail_differ_to_the_eye() {
    let picture = drawn(&["run", "examples/optional.script", "--names", NAMES]);
    for chip in [
        "<g><title>method 0 (read): can call</title>\n<rect class=\"call\"",
        "<g><title>method 1 (mark): can come to call alone: to itself as 5 marker</title>\n<rect class=\"come\"",
    ] {
        assert!(picture.contains(chip), "{chip}");
    }
    assert!(!drawn(&["run", SCRIPT, "--names", NAMES]).contains("class=\"come\""));
    for optional in ["come", "open", "only"] {
        assert!(grey(&picture, "call") + 150 < grey(&picture, optional));
    }
    let edge = |class: &str| {
        let rule = picture
            .split_once(&format!("\n.{class} {{"))
            .expect("a rule")
            .1;
        let rule = rule.split('}').next().expect("an end");
        rule.split("stroke-dasharray: ").nth(1).map(str::to_string)
    };
    assert!(edge("come").is_none());
    assert!(edge("open").is_some() && edge("only").is_some() && edge("open") != edge("only"));
}

/// The elements that are told by a tooltip which begins so.
fn told<'a>(picture: &'a str, tooltip: &str) -> Vec<&'a str> {
    let start = format!("<g><title>{tooltip}");
    let mut lines = body(picture).skip_while(|line| !line.starts_with(&start));
    let inside = lines.by_ref().take_while(|line| *line != "</g>");
    inside.skip(1).collect()
}

/// In front of the squares stands what a type says of each method.
#[test]
fn the_states_of_a_type_are_marked() {
    let picture = drawn(&["pairs", SHEET, "--names", NAMES]);
    let forwarder = "type 3 (forwarder), ref; avail: method 0 (read); optional: method 1 (mark); denied: method 2 (erase)</title>";
    let marks = told(&picture, forwarder);
    let marks: Vec<&str> = marks
        .iter()
        .filter(|line| line.starts_with("<rect"))
        .map(|line| class(line))
        .collect();
    assert_eq!(marks, ["call", "come"]);
    let unavail = drawn(&["pairs", "examples/types-48.sheet"]);
    let marks = told(&unavail, "type 0, class; avail: ");
    assert_eq!(
        marks
            .iter()
            .filter(|line| line.starts_with("<line"))
            .count(),
        2,
        "a cross for one"
    );
}

/// The marks of a row of squares, by what the text prints for them.
fn squares(picture: &str, t: usize) -> String {
    let top = |line: &&str| line.starts_with("<rect class=\"pair\"");
    let mut tops: Vec<usize> = body(picture)
        .filter(top)
        .filter_map(|line| attribute(line, "y"))
        .collect();
    tops.dedup();
    let mut marks = String::new();
    let mut lines = body(picture).peekable();
    while let Some(line) = lines.next() {
        if line.starts_with("<rect class=\"pair\"") && attribute(line, "y") == Some(tops[t]) {
            marks.push(match lines.peek().expect("an end") {
                mark if mark.contains("\"subtype\"") => '#',
                mark if mark.contains("\"strict\"") => '+',
                mark if mark.contains("\"loose\"") => 'o',
                mark if mark.contains("\"free\"") => '-',
                mark if mark.contains("\"own\"") => '*',
                _ => '.',
            });
        }
    }
    marks
}

/// The squares are marked as the text prints them. Rows of types with own have a mark of their own in both; in the picture also in front, and a stripe.
#[test]
fn rows_of_own_types_have_a_mark_of_their_own() {
    for sheet in [SHEET, "examples/types-48.sheet"] {
        let (text, picture) = (accepted(&["pairs", sheet]), drawn(&["pairs", sheet]));
        let lines = text.lines().filter(|line| line.contains(" ("));
        let rows: Vec<&str> = lines.take_while(|line| !line.contains("(row)")).collect();
        let mut own = 0;
        for (t, row) in rows.iter().enumerate() {
            let marks: String = row.split_once(") ").expect("marks").1.split(' ').collect();
            assert_eq!(squares(&picture, t), marks);
            if row.contains("(own)") {
                own += 1;
                assert!(!marks.contains(['#', '+', 'o', '-']), "{row}");
                let title = if sheet == SHEET {
                    "type 4 (whole log), own"
                } else {
                    &format!("type {t}, own")
                };
                let front = told(&picture, title);
                assert!(front
                    .iter()
                    .any(|line| line.starts_with("<path class=\"own\"")));
            }
        }
        assert!(own > 0);
        assert_eq!(picture.matches("<rect class=\"stripe\"").count(), own);
    }
}

/// A reference that is held as a type with own: one row in Case P, with another edge and a mark, and a line of the legend.
#[test]
fn references_with_own_have_a_mark_of_their_own() {
    let picture = drawn(&["run", SCRIPT, "--names", NAMES]);
    let row = told(&picture, "cell 0 leads to place 0, cell 3 leads to place 0");
    assert!(row[0].starts_with("<rect class=\"cell owned\""));
    assert!(row
        .iter()
        .any(|line| line.starts_with("<path class=\"own\"")));
    assert!(row.iter().any(|line| line.contains(">2 cells: 0, 3<")));
    assert_eq!(picture.matches("class=\"cell owned\"").count(), 2);
    assert!(picture.contains("held as a type with own"));
}

/// Names of 40 letters, 16 of them: none is left out.
#[test]
fn no_list_of_methods_is_cut_short() {
    let name = |number: usize| format!("{}{number:02}", "long_name_".repeat(3) + "metho_d_");
    let names: String = (0..16)
        .map(|number| format!("method {number} {}\n", name(number)))
        .collect();
    let mut picture = String::new();
    with_file("long.names", names.as_bytes(), |names| {
        with_file("long.script", &chains(&[1], 1), |script| {
            picture = drawn(&["run", script, "--names", names]);
        });
    });
    sound(&picture);
    apart(&picture);
    for number in 1..16 {
        let chips = picture
            .matches(&format!(">{}</text>", name(number)))
            .count();
        assert_eq!(chips, 4, "of three cells and an adapter");
    }
    assert!(!picture.contains(" more<"));
}

/// Every square says by a tooltip which pair it is, what holds of it and what it comes to.
#[test]
fn squares_have_tooltips() {
    let large = drawn(&["pairs", "examples/types-48.sheet"]);
    let mut lines = body(&large).peekable();
    let mut told = Vec::new();
    while let Some(line) = lines.next() {
        if lines
            .peek()
            .is_some_and(|next| next.starts_with("<rect class=\"pair\""))
        {
            told.push(line);
        }
    }
    assert_eq!(told.len(), 48 * 48);
    for (index, tooltip) in told.iter().enumerate() {
        let pair = [index / 48, index % 48];
        assert!(
            tooltip.starts_with("<g><title>") && tooltip.ends_with("</title>"),
            "{tooltip}"
        );
        assert!(
            pair.iter().all(|one| numbers(tooltip).contains(one)),
            "{tooltip}"
        );
    }
    let small = drawn(&["pairs", SHEET, "--names", NAMES]);
    for tooltip in [
        "loose: A reference of type 3 (forwarder) becomes type 5 (marker) if what it leads to has what type 5 (marker) calls",
        "free: A reference of type 2 (reader) becomes type 4 (whole log) for the owner of its object alone",
        "free: A reference of type 2 (reader) cannot become type 5 (marker)",
        "none: One is a number and the other a reference",
    ] {
        assert!(small.contains(&format!("<g><title>{tooltip}")), "{tooltip}");
    }
    let (width, height) = size(&large);
    assert!(width <= 1200 && height <= 1300, "{width} x {height}");
}

/// A picture may go on without what went to standard error.
#[test]
fn a_picture_says_where_its_script_is_cut_short() {
    let (status, picture, _) = run(&["run", "examples/refused-01.script", "--svg", "-"]);
    let title = ">References up to line 42 of refused-01.script, where the script is cut short<";
    assert_eq!((status, picture.matches(title).count()), (1, 2));
    sound(&picture);
    assert!(drawn(&["run", SCRIPT]).contains(">References at the end of case-p.script<"));
}

/// Names may hold what means something in a picture.
#[test]
fn names_are_escaped() {
    with_file(
        "escaped",
        b"type 1 <a> & \"b\"\nsubject 0 </text>\n",
        |path| {
            for words in [["pairs", SHEET], ["run", SCRIPT]] {
                let picture = drawn(&[&words[..], &["--names", path]].concat());
                sound(&picture);
                assert!(picture.contains("&lt;"));
            }
        },
    );
}

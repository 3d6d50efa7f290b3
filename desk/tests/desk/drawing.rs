//! Pictures taken apart: their elements, where they stand, and what they say.

use crate::files::{accepted, with_file};

/// The picture that a command draws.
pub fn drawn(words: &[&str]) -> String {
    let mut text = String::new();
    let name = format!("{}.svg", words.join("").replace('/', "-"));
    with_file(&name, b"", |path| {
        accepted(&[words, &["--svg", path]].concat());
        text = std::fs::read_to_string(path).expect("a picture");
    });
    text
}

/// The picture of a run of this script.
pub fn drawn_run(name: &str, script: &[u8]) -> String {
    let mut picture = String::new();
    with_file(name, script, |path| picture = drawn(&["run", path]));
    picture
}

/// The number in an attribute of an element.
pub fn attribute(element: &str, name: &str) -> Option<usize> {
    let (_, rest) = element.split_once(&format!(" {name}=\""))?;
    rest.split('"').next()?.parse().ok()
}

/// Width and height.
pub fn size(picture: &str) -> (usize, usize) {
    let head = picture.lines().next().expect("a line");
    let [width, height] = ["width", "height"].map(|name| attribute(head, name).expect("a number"));
    (width, height)
}

/// The elements behind the style, a line each.
pub fn body(picture: &str) -> impl Iterator<Item = &str> {
    let body = picture.split_once("</style>\n").expect("a style").1;
    body.lines()
}

/// What stands between the first tag of an element and the next.
pub fn content(element: &str) -> &str {
    let behind = element.split_once('>').map_or("", |(_, rest)| rest);
    behind.split('<').next().unwrap_or("")
}

/// A part of a picture: left, top, right, bottom.
pub type Area = [usize; 4];

/// Whether two areas have a point in common that is on the edge of neither.
fn overlap(one: &Area, other: &Area) -> bool {
    (0..2).all(|axis| one[axis] < other[axis + 2] && other[axis] < one[axis + 2])
}

/// The boxes of a run's picture, those of the legend too.
pub fn boxes(picture: &str) -> Vec<Area> {
    let classes = ["cell", "cell owned", "adapter", "object"];
    let classes = classes.map(|class| format!("<rect class=\"{class}\""));
    let is_box = |line: &&str| classes.iter().any(|class| line.starts_with(class));
    body(picture).filter(is_box).map(area).collect()
}

fn area(rect: &str) -> Area {
    let [x, y, width, height] =
        ["x", "y", "width", "height"].map(|name| attribute(rect, name).expect("a number"));
    [x, y, x + width, y + height]
}

/// The corners of a path that goes along the axes.
fn corners(path: &str) -> Vec<(usize, usize)> {
    let words: Vec<&str> = path.split(['"', ' ']).collect();
    let number = |index: usize| words[index].parse::<usize>().expect("a number");
    let (mut at, mut corners) = ((number(1), number(2)), vec![(number(1), number(2))]);
    for (index, word) in words.iter().enumerate().skip(3) {
        match *word {
            "H" => at.0 = number(index + 1),
            "V" => at.1 = number(index + 1),
            _ => continue,
        }
        corners.push(at);
    }
    corners
}

/// The straight parts of the lines between boxes, a pixel thick; by line.
pub fn ways(picture: &str) -> Vec<Vec<Area>> {
    let paths = body(picture).filter_map(|line| line.strip_prefix("<path class=\"way\" d=\""));
    let parts = |path: &str| {
        let corners = corners(path);
        let parts = corners.windows(2).map(|ends| {
            let [(x, y), (to_x, to_y)] = [ends[0], ends[1]];
            let (right, bottom) = (x.max(to_x), y.max(to_y));
            let thick = [x == to_x, y == to_y].map(usize::from);
            [
                x.min(to_x),
                y.min(to_y),
                right + thick[0],
                bottom + thick[1],
            ]
        });
        parts.collect()
    };
    paths.map(parts).collect()
}

/// A text with its area, by a low estimate of its width.
fn texts(picture: &str) -> Vec<(&str, Area)> {
    let horizontal = body(picture).filter(|line| line.starts_with("<text class"));
    let place = |element: &str| {
        let has = |class: &str| element.split('>').next().unwrap_or("").contains(class);
        let letter = match () {
            _ if has("title") => 100,
            _ if has("strong") || has("light") => 66,
            _ => 60,
        };
        let text = ["&lt;", "&gt;", "&amp;"].iter();
        let text = text.fold(content(element).to_string(), |text, one| {
            text.replace(one, "_")
        });
        let width = text.chars().count() * letter / 10;
        let [x, y] = ["x", "y"].map(|name| attribute(element, name).expect("a number"));
        let left = match () {
            _ if has("middle") => x - width / 2,
            _ if has("right") => x - width,
            _ => x,
        };
        [left, y - 9, left + width, y + 2]
    };
    horizontal.map(|one| (one, place(one))).collect()
}

/// Every element is closed, none begins or ends outside, and no text stands in another.
pub fn sound(picture: &str) {
    let (width, height) = size(picture);
    well_formed(picture);
    for element in body(picture) {
        for (from, size, most) in [
            ("x", "width", width),
            ("y", "height", height),
            ("x2", "", width),
            ("y2", "", height),
        ] {
            let end = attribute(element, from).unwrap_or(0) + attribute(element, size).unwrap_or(0);
            assert!(end <= most, "{element} in {width} x {height}");
        }
    }
    let texts = texts(picture);
    for (index, (one, area)) in texts.iter().enumerate() {
        assert!(area[2] <= width, "{one} in {width}");
        for (other, other_area) in &texts[index + 1..] {
            assert!(!overlap(area, other_area), "{one} and {other}");
        }
    }
}

/// Every tag that is opened is closed, in order.
fn well_formed(picture: &str) {
    let mut open: Vec<&str> = Vec::new();
    for tag in picture.split('<').skip(1) {
        let (tag, _) = tag.split_once('>').expect("an end");
        let name = tag.split([' ', '/']).next().expect("a name");
        match tag.strip_prefix('/') {
            Some(name) => assert_eq!(open.pop(), Some(name)),
            None if tag.ends_with('/') => {}
            None => open.push(name),
        }
    }
    assert_eq!(open, Vec::<&str>::new());
}

/// No box covers another, and no line goes through a box or across another line that leads elsewhere.
pub fn apart(picture: &str) {
    let (boxes, ways) = (boxes(picture), ways(picture));
    for (index, one) in boxes.iter().enumerate() {
        for other in &boxes[index + 1..] {
            assert!(!overlap(one, other), "{one:?} and {other:?}");
        }
        for way in ways.iter().flatten() {
            assert!(!overlap(one, way), "{one:?} and the line {way:?}");
        }
    }
    for (index, one) in ways.iter().enumerate() {
        for other in ways[index + 1..]
            .iter()
            .filter(|other| other.last() != one.last())
        {
            let mut parts = one
                .iter()
                .flat_map(|part| other.iter().map(move |to| (part, to)));
            assert!(
                !parts.any(|(one, other)| overlap(one, other)),
                "{one:?} and {other:?}"
            );
        }
    }
}

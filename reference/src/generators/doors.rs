//! Inputs of the program `doors` (P27): the text of lists, and texts that are not of its form, or at its limits.

use super::times::{doors_lists, right, right_and_short, unfit, Lists};
use crate::damage::{any_byte, lines};
use crate::random::Random;
use crate::script::MAX_INPUT;
use crate::tiny;

/// An input: of an even seed the text of the lists of half of it, of an odd one a damaged text, each kind in its turn.
pub fn doors_input(seed: u64) -> Vec<u8> {
    let half = seed / 2;
    if seed % 2 == 0 {
        return doors_text(&doors_lists(half));
    }
    let mut random = Random::new(seed ^ 0x00d0_0125_bad0_0000);
    let kind = (half % KINDS as u64) as usize;
    match kind.checked_sub(WORDS.len()) {
        None => with_word(&mut random, WORDS[kind]),
        Some(at) => {
            let mut text = doors_text(&some_lists(&mut random));
            TEXTS[at](&mut random, &mut text);
            text
        }
    }
}

/// The text of lists, of the form of P27 whatever they hold.
pub fn doors_text((marks, arrivals, within): &Lists) -> Vec<u8> {
    let words = |times: &[u64]| times.iter().map(u64::to_string).collect::<Vec<String>>();
    text(&[vec![within.to_string()], words(marks), words(arrivals)])
}

/// The text of three lines of words.
fn text([within, marks, arrivals]: &[Vec<String>; 3]) -> Vec<u8> {
    let lines = format!(
        "within={}\n{}\n{}\n",
        within.join(" "),
        marks.join(" "),
        arrivals.join(" ")
    );
    lines.into_bytes()
}

/// Lists to be damaged: most of them short and right.
fn some_lists(random: &mut Random) -> Lists {
    match random.weighted(&[65, 20, 15]) {
        0 => right_and_short(random),
        1 => right(random),
        _ => unfit(random, None),
    }
}

/// How many kinds of damage there are.
const KINDS: usize = WORDS.len() + TEXTS.len();

/// What is put for one number, `#` standing for the number as it was: no decimals (S21), and then decimals that no
/// word holds, or whose low bits are a small number (S2).
const WORDS: [&str; 30] = [
    "0#",
    "00",
    "000#",
    "+#",
    "-#",
    "-0",
    "",
    "#x",
    "x",
    "0x#",
    "1e3",
    "#.0",
    ".5",
    "#_000",
    "#\u{663}",
    "\u{ff11}",
    "\"#\"",
    "#\0",
    "#;",
    "#/",
    "#:",
    "4294967296",
    "4294967297",
    "18446744073709551616",
    "18446744073709551623",
    "36893488147419103232",
    "340282366920938463463374607431768211456",
    "99999999999999999999999",
    "123456789012345678901234567890",
    "1000000000000000000000000000000000000000000000000000000000000000000000000000000000000",
];

/// A text with another word for one of its numbers.
fn with_word(random: &mut Random, word: &str) -> Vec<u8> {
    let (marks, arrivals, within) = some_lists(random);
    let mut lines = [vec![within], marks, arrivals]
        .map(|line| line.iter().map(u64::to_string).collect::<Vec<String>>());
    let line = &mut lines[random.below(3)];
    match random.index(line.len()) {
        Some(at) => line[at] = word.replace('#', &line[at]),
        None => line.push(word.replace('#', "7")),
    }
    text(&lines)
}

/// Damage to a whole text.
const TEXTS: [fn(&mut Random, &mut Vec<u8>); 28] = [
    space_twice,
    space_at_end,
    space_in_front,
    space_in_front_of_all,
    space_behind_the_key,
    tab,
    other_space,
    comma,
    return_at_end,
    returns_everywhere,
    without_last_lf,
    without_a_line,
    one_line_more,
    blank_in_front,
    blank_between,
    other_key,
    without_key,
    without_tolerance,
    key_further_down,
    lines_exchanged,
    broken_line,
    cut,
    bytes,
    other_text,
    longest,
    too_long,
    longest_and_wrong,
    too_long_and_wrong,
];

/// The places of a byte in a text.
fn places(text: &[u8], byte: u8) -> Vec<usize> {
    (0..text.len()).filter(|at| text[*at] == byte).collect()
}

/// Puts bytes for one of a text; at its end where it has none.
fn put_for(random: &mut Random, text: &mut Vec<u8>, byte: u8, bytes: &[u8]) {
    match random.pick_some(&places(text, byte)).copied() {
        Some(at) => drop(text.splice(at..at + 1, bytes.iter().copied())),
        None => text.extend_from_slice(bytes),
    }
}

fn space_twice(random: &mut Random, text: &mut Vec<u8>) {
    put_for(random, text, b' ', b"  ");
}

fn space_at_end(random: &mut Random, text: &mut Vec<u8>) {
    put_for(random, text, b'\n', b" \n");
}

fn space_in_front(random: &mut Random, text: &mut Vec<u8>) {
    let at = *random.pick(&places(text, b'\n')[..2]);
    text.insert(at + 1, b' ');
}

fn space_in_front_of_all(_: &mut Random, text: &mut Vec<u8>) {
    text.insert(0, b' ');
}

fn space_behind_the_key(random: &mut Random, text: &mut Vec<u8>) {
    put_for(random, text, b'=', b"= ");
}

fn tab(random: &mut Random, text: &mut Vec<u8>) {
    put_for(random, text, b' ', b"\t");
}

fn other_space(random: &mut Random, text: &mut Vec<u8>) {
    let bytes = *random.pick(&[
        &b"\x0b"[..],
        b"\x0c",
        b"\xa0",
        b"_",
        b"\0",
        b", ",
        b";",
        b" \t",
    ]);
    put_for(random, text, b' ', bytes);
}

fn comma(random: &mut Random, text: &mut Vec<u8>) {
    put_for(random, text, b' ', b",");
}

fn return_at_end(random: &mut Random, text: &mut Vec<u8>) {
    let bytes = *random.pick(&[&b"\r\n"[..], b"\r\n", b"\r", b"\n\r"]);
    put_for(random, text, b'\n', bytes);
}

fn returns_everywhere(_: &mut Random, text: &mut Vec<u8>) {
    *text = lines(text)
        .into_iter()
        .flat_map(|line| [&line[..line.len() - 1], b"\r\n"].concat())
        .collect();
}

fn without_last_lf(_: &mut Random, text: &mut Vec<u8>) {
    text.pop();
}

fn without_a_line(random: &mut Random, text: &mut Vec<u8>) {
    let mut list = lines(text);
    list.remove(random.below(3));
    *text = list.concat();
}

/// A line of the text again, or another one, behind the last or between.
fn one_line_more(random: &mut Random, text: &mut Vec<u8>) {
    let mut list = lines(text);
    let lines = [list[0], list[1], list[2], b"0\n", b"end\n", b"\r\n", b"7"];
    let line = *random.pick(&lines);
    let at = *random.pick(&[0, 1, 2, 3, 3, 3]);
    list.insert(at, line);
    *text = list.concat();
}

fn blank_in_front(_: &mut Random, text: &mut Vec<u8>) {
    text.insert(0, b'\n');
}

fn blank_between(random: &mut Random, text: &mut Vec<u8>) {
    put_for(random, text, b'\n', b"\n\n");
}

fn other_key(random: &mut Random, text: &mut Vec<u8>) {
    let keys = [
        "=",
        "within",
        "within:",
        "within==",
        "within =",
        "Within=",
        "WITHIN=",
        "without=",
        "tolerance=",
        "xwithin=",
        "guide=",
        "do=",
    ];
    text.splice(..b"within=".len(), random.pick(&keys).bytes());
}

fn without_key(_: &mut Random, text: &mut Vec<u8>) {
    text.drain(..b"within=".len());
}

fn without_tolerance(_: &mut Random, text: &mut Vec<u8>) {
    let line = lines(text)[0].len();
    text.drain(b"within=".len()..line - 1);
}

/// A key in front of a line that has none.
fn key_further_down(random: &mut Random, text: &mut Vec<u8>) {
    let key = *random.pick(&["marks=", "arrivals=", "within=", "="]);
    let at = *random.pick(&places(text, b'\n')[..2]) + 1;
    text.splice(at..at, key.bytes());
}

fn lines_exchanged(random: &mut Random, text: &mut Vec<u8>) {
    let mut list = lines(text);
    let (first, second) = *random.pick(&[(0, 1), (0, 2), (1, 2)]);
    list.swap(first, second);
    *text = list.concat();
}

fn broken_line(random: &mut Random, text: &mut Vec<u8>) {
    put_for(random, text, b' ', b"\n");
}

fn cut(random: &mut Random, text: &mut Vec<u8>) {
    text.truncate(random.below(text.len()));
}

fn bytes(random: &mut Random, text: &mut Vec<u8>) {
    for _ in 0..random.within((1, 3)) {
        any_byte(random, text);
    }
}

fn other_text(random: &mut Random, text: &mut Vec<u8>) {
    let texts = [
        &b""[..],
        b"\n",
        b"\n\n\n",
        b"within=\n\n\n",
        b"within=0\n",
        b"within=0\n\n",
        b"0\n0\n0\n",
        &tiny::texts()[0],
    ];
    *text = random.pick(&texts).to_vec();
}

/// A text of the form of P27 that has so many bytes: by a long tolerance, by many arrivals, or by one that is long.
fn right_of_length(random: &mut Random, length: usize) -> Vec<u8> {
    let mut text = doors_text(&right_and_short(random));
    if random.chance(30) {
        let at = b"within=".len();
        text.splice(at..at, vec![b'9'; length - text.len()]);
        return text;
    }
    text.truncate(text.len() - lines(&text)[2].len());
    let two = *random.pick(&[b"9 ", b"99"]);
    text.extend((0..length - text.len() - 2).map(|at| two[at % 2]));
    text.extend_from_slice(b"9\n");
    text
}

/// A text of as many bytes that has not that form.
fn wrong_of_length(random: &mut Random, length: usize) -> Vec<u8> {
    let mut text = doors_text(&right_and_short(random));
    let byte = *random.pick(b"\n 0x");
    text.resize(length, byte);
    text
}

fn longest(random: &mut Random, text: &mut Vec<u8>) {
    *text = right_of_length(random, MAX_INPUT);
}

fn too_long(random: &mut Random, text: &mut Vec<u8>) {
    *text = right_of_length(random, MAX_INPUT + 1);
}

fn longest_and_wrong(random: &mut Random, text: &mut Vec<u8>) {
    *text = wrong_of_length(random, MAX_INPUT);
}

fn too_long_and_wrong(random: &mut Random, text: &mut Vec<u8>) {
    *text = wrong_of_length(random, MAX_INPUT + 1);
}

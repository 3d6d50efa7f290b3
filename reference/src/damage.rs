//! Damage to texts: bytes, lines and numbers that are bad, or right elsewhere.

use crate::random::Random;
use crate::script::{MAX_CALL_ARGUMENTS, MAX_INPUT};
use crate::table::MAX_ARGUMENTS;

/// Bytes of the alphabet of sheets and requests, and a few others.
pub const BYTES: &[u8] = b"0123456789=,()-+ \n\r\0\xffabdeghilmnopstuvwyA";

/// Numbers in and around the ranges of sheets and requests, too long for any
/// word, or not of the form of a number.
pub const NUMBERS: [&str; 47] = [
    "0",
    "1",
    "2",
    "3",
    "4",
    "5",
    "6",
    "7",
    "8",
    "15",
    "16",
    "17",
    "30",
    "31",
    "32",
    "33",
    "47",
    "48",
    "49",
    "127",
    "128",
    "255",
    "256",
    "511",
    "512",
    "513",
    "2147483647",
    "2147483648",
    "-2147483648",
    "-2147483649",
    "4294967297",
    "9223372036854775807",
    "9223372036854775808",
    "-9223372036854775808",
    "-9223372036854775809",
    "18446744073709551615",
    "18446744073709551616",
    "18446744073709551617",
    "99999999999999999999999",
    "00",
    "01",
    "-0",
    "-1",
    "+1",
    "1 ",
    "x",
    "",
];

/// Lines that are right somewhere in a sheet, or nearly right.
const LINES: [&str; 53] = [
    "guide=1\n",
    "guide=2\n",
    "guide=0\n",
    "guide=01\n",
    "subjects=0\n",
    "subjects=17\n",
    "methods=0\n",
    "methods=17\n",
    "cats=32\n",
    "cats=00\n",
    "under=0\n",
    "under=0,0\n",
    "under=1\n",
    "under=0,0,0\n",
    "under=1,99\n",
    "under=31\n",
    "under=32,0\n",
    "under=\n",
    "types=0\n",
    "types=49\n",
    "type=0\n",
    "rep=w16\n",
    "rep=w32\n",
    "rep=w64\n",
    "rep=ref\n",
    "cat=31\n",
    "cat=99\n",
    "cat=-1\n",
    "own=maybe\n",
    "own=yes\n",
    "own=\n",
    "m=avail\n",
    "m=avail(0,0,99)0\n",
    "m=avail(0,0,0)0\n",
    "m=avail(0,0,0,0)0\n",
    "m=optional(0,0,0,99)-\n",
    "m=avail(0,0,0,0,0)0\n",
    "m=avail(0,0,0,0,99)0\n",
    "m=optional(0,)-\n",
    "m=optional(0)-\n",
    "m=avail()\n",
    "m=avail()-\n",
    "m=avail()0\n",
    "m=avail(0,0)99\n",
    "m=unavail\n",
    "m=optional()--\n",
    "m=avail( 0)-\n",
    "m=denied\r\n",
    "end=sheet\n",
    "end=sheet",
    "do=new 0 0 0\n",
    "do=call 0 0 0 0 0 0 0 0\n",
    "\n",
];

/// One damage to a text.
pub fn damage(random: &mut Random, text: &mut Vec<u8>) {
    match random.weighted(&[24, 8, 8, 6, 12, 4, 4, 6, 8, 8, 6, 24, 8, 4]) {
        0 => any_byte(random, text),
        1 => change_lines(random, text, |random, lines, at| {
            let to = random.below(lines.len());
            lines.insert(to, lines[at]);
        }),
        2 => change_lines(random, text, |_, lines, at| {
            lines.remove(at);
        }),
        3 => change_lines(random, text, |random, lines, at| {
            let other = random.below(lines.len());
            lines.swap(at, other);
        }),
        4 => change_lines(random, text, |random, lines, at| {
            lines[at] = random.pick(&LINES).as_bytes();
        }),
        5 => text.extend_from_slice(random.pick(&LINES).as_bytes()),
        6 => drop(text.pop()),
        7 => text.truncate(random.below(text.len() + 1)),
        8 => own_yes(random, text),
        9 => other_links(random, text),
        10 => long_number(random, text),
        11 => longer_signature(random, text),
        12 => longer_call(random, text),
        _ => other_number(random, text),
    }
}

/// Brings a text to the longest input, or one byte less or more.
pub fn lengthen(random: &mut Random, text: &mut Vec<u8>) {
    let length = random.within((MAX_INPUT - 1, MAX_INPUT + 1));
    text.resize(length, b'\n');
}

/// The lines of a text, each with its LF.
pub fn lines(text: &[u8]) -> Vec<&[u8]> {
    text.split_inclusive(|byte| *byte == b'\n').collect()
}

/// Another byte, one byte more or one less.
pub fn any_byte(random: &mut Random, text: &mut Vec<u8>) {
    let byte = if random.chance(85) {
        *random.pick(BYTES)
    } else {
        random.below(256) as u8
    };
    let at = random.below(text.len() + 1);
    match random.below(3) {
        0 => text.insert(at, byte),
        1 if at < text.len() => text[at] = byte,
        _ if at < text.len() => drop(text.remove(at)),
        _ => text.push(byte),
    }
}

/// Changes the lines of a text, given the number of one of them.
fn change_lines(
    random: &mut Random,
    text: &mut Vec<u8>,
    change: impl FnOnce(&mut Random, &mut Vec<&[u8]>, usize),
) {
    let old = text.clone();
    let mut list = lines(&old);
    if !list.is_empty() {
        let at = random.below(list.len());
        change(random, &mut list, at);
    }
    *text = list.concat();
}

/// Puts a line in place of one that begins so.
fn other_line(random: &mut Random, text: &mut Vec<u8>, start: &[u8], line: &[u8]) {
    let old = text.clone();
    let mut list = lines(&old);
    let found: Vec<usize> = (0..list.len())
        .filter(|at| list[*at].starts_with(start))
        .collect();
    if let Some(at) = random.pick_some(&found) {
        list[*at] = line;
    }
    *text = list.concat();
}

/// Turns one `own=no` into `own=yes`.
fn own_yes(random: &mut Random, text: &mut Vec<u8>) {
    other_line(random, text, b"own=no\n", b"own=yes\n");
}

/// Puts other numbers into an `under=` line.
fn other_links(random: &mut Random, text: &mut Vec<u8>) {
    let (first, second) = (random.below(5), random.below(5));
    let line = match random.chance(50) {
        true => format!("under={first}\n"),
        false => format!("under={first},{second}\n"),
    };
    other_line(random, text, b"under=", line.as_bytes());
}

/// Puts a signature with as many arguments as there may be, or one less or more, into an `m=` line.
fn longer_signature(random: &mut Random, text: &mut Vec<u8>) {
    let count = random.within((MAX_ARGUMENTS - 1, MAX_ARGUMENTS + 1));
    let list = vec!["0"; count].join(",");
    other_line(
        random,
        text,
        b"m=",
        format!("m=avail({list})-\n").as_bytes(),
    );
}

/// The same for a `do=call` line (P7).
fn longer_call(random: &mut Random, text: &mut Vec<u8>) {
    let count = random.within((MAX_CALL_ARGUMENTS - 1, MAX_CALL_ARGUMENTS + 1));
    let line = format!("do=call 0 0 0{}\n", " 0".repeat(count));
    other_line(random, text, b"do=call", line.as_bytes());
}

/// Puts another number in place of one.
fn other_number(random: &mut Random, text: &mut Vec<u8>) {
    let number = random.pick(&NUMBERS).to_string();
    replace_number(random, text, &number);
}

fn long_number(random: &mut Random, text: &mut Vec<u8>) {
    let digits = random.within((20, 400));
    let number: String = (0..digits).map(|_| *random.pick(&['1', '9'])).collect();
    replace_number(random, text, &number);
}

fn replace_number(random: &mut Random, text: &mut Vec<u8>, number: &str) {
    let digit = |at: usize| text.get(at).is_some_and(u8::is_ascii_digit);
    let starts: Vec<usize> = (0..text.len())
        .filter(|at| digit(*at) && (*at == 0 || !digit(*at - 1)))
        .collect();
    let Some(start) = random.pick_some(&starts).copied() else {
        return;
    };
    let length = (start..text.len()).take_while(|at| digit(*at)).count();
    text.splice(start..start + length, number.bytes());
}

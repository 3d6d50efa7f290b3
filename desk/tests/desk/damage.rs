//! Every small damage to a text.

/// Bytes that a line may hold somewhere, and others.
const BYTES: &[u8] = b"0129=,()- \n\r\t\0\xc3\xffavdm";

/// Words that may be put in place of a number.
const NUMBERS: [&str; 12] = [
    "",
    "0",
    "1",
    "2",
    "3",
    "16",
    "17",
    "49",
    "00",
    "-1",
    "-0",
    "99999999999999999999999999",
];

/// Every text that comes of one byte taken away, put in or changed.
pub fn bytes_damaged(text: &[u8]) -> impl Iterator<Item = Vec<u8>> + '_ {
    (0..=text.len()).flat_map(move |at| {
        let (front, back) = text.split_at(at);
        let behind = back.get(1..).unwrap_or_default();
        let put = BYTES
            .iter()
            .map(move |byte| [front, &[*byte], back].concat());
        let changed = BYTES
            .iter()
            .map(move |byte| [front, &[*byte], behind].concat());
        let taken = [[front, behind].concat(), front.to_vec()];
        put.chain(changed).chain(taken)
    })
}

/// Every text that comes of one line taken away, doubled, or exchanged with a later one.
pub fn lines_damaged(text: &[u8]) -> Vec<Vec<u8>> {
    let lines: Vec<&[u8]> = text.split_inclusive(|byte| *byte == b'\n').collect();
    let mut texts = Vec::new();
    for at in 0..lines.len() {
        let (front, back) = lines.split_at(at);
        texts.push([front, &back[1..]].concat().concat());
        texts.push([front, &back[..1], back].concat().concat());
        for later in at + 1..lines.len() {
            let mut lines = lines.clone();
            lines.swap(at, later);
            texts.push(lines.concat());
        }
    }
    texts
}

/// Every text that comes of another word in place of one number.
pub fn numbers_damaged(text: &[u8]) -> Vec<Vec<u8>> {
    let digit = |at: usize| text.get(at).is_some_and(u8::is_ascii_digit);
    let starts = (0..text.len()).filter(|at| digit(*at) && (*at == 0 || !digit(*at - 1)));
    let mut texts = Vec::new();
    for start in starts {
        let end = (start..text.len())
            .find(|at| !digit(*at))
            .unwrap_or(text.len());
        for number in NUMBERS {
            texts.push([&text[..start], number.as_bytes(), &text[end..]].concat());
        }
    }
    texts
}

/// All of these.
pub fn damaged(text: &[u8]) -> impl Iterator<Item = Vec<u8>> + '_ {
    let lines = lines_damaged(text).into_iter();
    bytes_damaged(text)
        .chain(lines)
        .chain(numbers_damaged(text))
}

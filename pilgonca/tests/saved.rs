//! A saved state: what its bytes are, that every damage is refused for a reason that is told, and that a right checksum is no way around the core.

use pilgonca::saved::{checksum, MARK, MOST_BYTES, OLDEST, VERSION};
use pilgonca::{Call, Cell, Method, Refusal, SavedRefused, Subject, Type, Visit};

/// One of everything: a subject, a method, a category, a type.
const ONE: &[u8] = b"guide=1\nsubjects=1\nmethods=1\ncats=1\nunder=0\ntypes=1\ntype=0\nrep=ref\ncat=1\nown=no\nm=avail()-\nend=sheet\n";

/// And a cell, a place, a call.
fn one() -> Visit {
    let mut visit = Visit::load(ONE).expect("a sheet");
    let (subject, type_) = (Subject(0), Type(0));
    let held = visit.new_object(subject, type_, type_).expect("made");
    visit
        .call(subject, held.cell, Method(0), &[])
        .expect("a call");
    visit
}

/// Bytes with the checksum that is theirs.
fn signed(front: &[u8]) -> Vec<u8> {
    [front, &checksum(front).to_le_bytes()].concat()
}

fn reason(bytes: &[u8]) -> SavedRefused {
    match Visit::from_saved(bytes) {
        Ok(_) => panic!("accepted: {bytes:?}"),
        Err(refused) => refused,
    }
}

/// CRC-32, by what others say of it: the check value of catalogues, and words whose sums are widely known.
#[test]
fn the_checksum_is_the_common_one() {
    for (bytes, sum) in [
        (&b"123456789"[..], 0xcbf4_3926),
        (b"", 0),
        (b"a", 0xe8b7_be43),
        (b"The quick brown fox jumps over the lazy dog", 0x414f_a339),
        (&[0; 32], 0x190a_55ad),
        (&[0xff; 32], 0xff6c_ab0b),
    ] {
        assert_eq!(checksum(bytes), sum, "{bytes:?}");
    }
}

#[test]
fn every_byte_has_its_place() {
    let mut type_ = [0; 128];
    // ref, category 1, not own; method 0 avail
    type_[1] = 1;
    type_[16] = 2;
    let counts = [1, 0].repeat(8);
    let parts: [&[u8]; 8] = [
        b"PILGONCA",
        &[2, 0],
        &counts,
        &type_,
        &[1, 0, 0],
        &[0, 0, 0],
        &[0, 0, 0],
        &[0, 0, 0, 0],
    ];
    let bytes = signed(&parts.concat());
    assert_eq!(one().save(), bytes);
    let mut answered = one();
    answered
        .answer(Subject(0), Call(0), None)
        .expect("answered");
    let mut flagged = bytes[..bytes.len() - 4].to_vec();
    *flagged.last_mut().expect("the flag") = 1;
    assert_eq!(answered.save(), signed(&flagged));
}

/// The table of the guide, with the bytes of examples/optional.state.
#[test]
fn the_guide_has_the_bytes() {
    let guide = include_str!("../../docs/GUIDE.md");
    let file = include_bytes!("../../examples/optional.state");
    let (_, section) = guide.split_once("\n## A saved state\n").expect("a section");
    let rows = section.lines().filter(|line| line.starts_with("| "));
    let rows: Vec<Vec<&str>> = rows
        .skip(1)
        .map(|row| row.trim_matches('|').split('|').map(str::trim).collect())
        .collect();
    let mut at = 0;
    for row in &rows[..9] {
        let [from, _, _, shown] = row[..] else {
            panic!("{row:?}");
        };
        assert_eq!(from.parse(), Ok(at), "{row:?}");
        let shown: Vec<&str> = shown.split(' ').filter(|word| !word.is_empty()).collect();
        if let [length, "bytes"] = shown[..] {
            at += length.parse::<usize>().expect("a number");
            continue;
        }
        for word in shown {
            let byte = u8::from_str_radix(word, 16).expect("a byte");
            assert_eq!(byte, file[at], "byte {at}");
            at += 1;
        }
    }
    assert_eq!(at, file.len());
    assert!(section.contains("19,707") && MOST_BYTES == 19_707);
    let read = Visit::from_saved(file).expect("a state");
    assert_eq!((read.cells().count(), read.calls().count()), (3, 2));
}

/// A full state is the longest, and comes back.
#[test]
fn the_longest_is_as_long_as_is_said() {
    let mut state = one().state().clone();
    state.counts = [16, 1, 31, 48, 128, 256, 128, 512];
    let calls = state.calls.chunks_mut(4).zip((0..16).cycle());
    calls.for_each(|(call, caller)| call[0] = caller);
    state
        .links
        .chunks_mut(3)
        .for_each(|link| link.copy_from_slice(&[1, 0, 0]));
    let (first, others) = state.types.split_at_mut(128);
    others
        .chunks_mut(128)
        .for_each(|type_| type_.copy_from_slice(first));
    let visit = Visit::from_state(state).expect("sound");
    let bytes = visit.save();
    assert_eq!(bytes.len(), MOST_BYTES);
    assert_eq!(Visit::from_saved(&bytes).expect("a state").save(), bytes);
}

/// Bytes behind the counts are not saved: they come back as 0.
#[test]
fn what_is_not_counted_is_not_saved() {
    let visit = one();
    let mut noisy = visit.state().clone();
    for (bytes, counted) in [
        (&mut noisy.types[..], 128),
        (&mut noisy.cells, 3),
        (&mut noisy.places, 3),
        (&mut noisy.calls, 4),
    ] {
        bytes[counted..].fill(0x5a);
    }
    noisy.links[..3].fill(0x5a);
    noisy.links[6..].fill(0x5a);
    let noisy = Visit::from_state(noisy).expect("sound");
    assert_eq!(noisy.save(), visit.save());
    let read = Visit::from_saved(&noisy.save()).expect("a state");
    assert!(read.state() == visit.state());
}

#[test]
fn every_damage_to_a_byte_is_refused() {
    let bytes = one().save();
    for at in 0..bytes.len() {
        let mut damaged = bytes.clone();
        for byte in (0..=255).filter(|byte| *byte != bytes[at]) {
            damaged[at] = byte;
            reason(&damaged);
        }
        let (front, back) = bytes.split_at(at);
        reason(front);
        reason(&[front, &back[1..]].concat());
        for byte in 0..=255 {
            reason(&[front, &[byte], back].concat());
        }
    }
    for byte in 0..=255 {
        reason(&[&bytes[..], &[byte]].concat());
    }
}

/// Each reason, by the first byte that gives it; the words name what is wrong.
#[test]
fn reasons_are_told_apart() {
    let bytes = one().save();
    let length = bytes.len();
    let with = |at: usize, byte: u8| {
        let mut front = bytes[..length - 4].to_vec();
        front[at] = byte;
        signed(&front)
    };
    let (due, short) = (length, length - 1);
    let mut damaged = bytes.clone();
    damaged[40] = 9;
    for (bytes, refused, words) in [
        (&b"pilgonca"[..], SavedRefused::NotMarked, "no saved state"),
        (
            &[],
            SavedRefused::NotMarked,
            "begins with the bytes PILGONCA",
        ),
        (&with(8, 3), SavedRefused::Version(3), "of version 3"),
        (
            &with(9, 1),
            SavedRefused::Version(258),
            "reads versions 1 and 2",
        ),
        (&with(8, 0), SavedRefused::Version(0), "of version 0"),
        (
            &MARK,
            SavedRefused::CutShort { length: 8, due: 30 },
            "8 bytes, and 30 are due",
        ),
        (
            &bytes[..25],
            SavedRefused::CutShort {
                length: 25,
                due: 30,
            },
            "cut short",
        ),
        (
            &bytes[..short],
            SavedRefused::CutShort { length: short, due },
            "cut short",
        ),
        (
            &with(20, 2),
            SavedRefused::CutShort {
                length,
                due: due + 3,
            },
            "171 bytes, and 174 are due",
        ),
        (
            &[&bytes[..], &[0]].concat(),
            SavedRefused::TooLong {
                length: length + 1,
                due,
            },
            "too long: 172 bytes, and 171 are due",
        ),
        (
            &with(21, 2),
            SavedRefused::Count {
                of: "cells",
                count: 513,
                most: 256,
            },
            "it counts 513 cells, and there are at most 256",
        ),
        (
            &with(18, 129),
            SavedRefused::Count {
                of: "types",
                count: 129,
                most: 128,
            },
            "129 types",
        ),
        (
            &with(26, 3),
            SavedRefused::State(Refusal::OutOfRange),
            "refuses the state with 2",
        ),
        // no subject at all, which no array shows
        (
            &with(10, 0),
            SavedRefused::State(Refusal::OutOfRange),
            "unsound",
        ),
    ] {
        assert_eq!(reason(bytes), refused);
        assert!(refused.to_string().contains(words), "{refused}");
    }
    let refused = reason(&damaged);
    assert!(matches!(refused, SavedRefused::Checksum { stands, due } if stands != due));
    assert!(refused.to_string().contains("it is damaged"), "{refused}");
}

/// Whoever can write a checksum still has to get past the core: what is read is sound, and is saved as it was read.
#[test]
fn a_right_checksum_is_believed_in_nothing() {
    let bytes = one().save();
    let front = &bytes[..bytes.len() - 4];
    let (mut sound, mut unsound) = (0, 0);
    for at in 0..front.len() {
        for byte in 0..=255 {
            let mut forged = front.to_vec();
            forged[at] = byte;
            let forged = signed(&forged);
            match Visit::from_saved(&forged) {
                Ok(visit) => {
                    // an older version is saved as this one
                    let due = if at == 8 { &bytes } else { &forged };
                    assert_eq!(&visit.save(), due);
                    assert!(visit.offers(Cell(0), &[Method(0)]).is_ok());
                    sound += 1;
                }
                Err(SavedRefused::State(refusal)) => {
                    assert_eq!(refusal, Refusal::OutOfRange);
                    unsound += 1;
                }
                Err(SavedRefused::Checksum { .. }) => panic!("byte {at}: {byte}"),
                Err(_) => assert!(at < 26, "byte {at}: {byte}"),
            }
        }
    }
    println!("{sound} sound, {unsound} not");
    assert!(sound > 1000 && unsound > 1000);
}

/// A file with so many calls, whose callers are given in turn, on a sheet with 16 subjects.
fn called(version: u16, calls: u16, callers: &[u8]) -> Vec<u8> {
    let bytes = one().save();
    // up to the checksum and the only call
    let mut front = bytes[..bytes.len() - 8].to_vec();
    front[8..10].copy_from_slice(&version.to_le_bytes());
    front[10] = 16;
    front[24..26].copy_from_slice(&calls.to_le_bytes());
    let callers = callers.iter().cycle().take(usize::from(calls));
    front.extend(callers.flat_map(|caller| [*caller, 0, 0, 1]));
    signed(&front)
}

const ALL: [u8; 16] = [0, 1, 2, 3, 4, 5, 6, 7, 8, 9, 10, 11, 12, 13, 14, 15];

/// The file that version 1 wrote of the same state: by the checksum, which stood in the guide then, it is that one to the byte.
#[test]
fn a_file_of_version_1_is_read() {
    let file = include_bytes!("../../examples/optional.state");
    let mut front = file[..file.len() - 4].to_vec();
    front[8] = 1;
    assert_eq!(checksum(&front), 0xb1f4_eaa9);
    let read = Visit::from_saved(&signed(&front)).expect("a state");
    let again = Visit::from_saved(file).expect("a state");
    assert!(read.state() == again.state());
    assert_eq!(read.save(), file);
}

/// As many calls as each version has.
#[test]
fn calls_are_counted_by_the_version() {
    for (version, most) in [(OLDEST, 256), (VERSION, 512)] {
        for calls in [0, 1, 255, 256, most] {
            let file = called(version, calls, &ALL);
            let read = Visit::from_saved(&file).expect("a state");
            assert_eq!(read.calls().count(), usize::from(calls));
            assert_eq!(read.save(), called(VERSION, calls, &ALL));
        }
        for calls in [most + 1, 1024, u16::MAX] {
            let refused = reason(&called(version, calls, &ALL));
            let due = SavedRefused::Count {
                of: "calls",
                count: usize::from(calls),
                most: usize::from(most),
            };
            assert_eq!(refused, due);
            let words = format!("it counts {calls} calls, and there are at most {most}");
            assert_eq!(refused.to_string(), words);
        }
    }
}

/// More calls of a subject than it may make are refused by the core (H17), and it is told whose they are; what else is wrong is not told apart.
#[test]
fn too_many_calls_of_one_are_told() {
    for version in [OLDEST, VERSION] {
        let full = called(version, 32, &[7]);
        assert!(Visit::from_saved(&full).is_ok());
        for (calls, callers, of, count) in [
            (33, &[7][..], 7, 33),
            (256, &[15], 15, 256),
            (66, &[3, 9], 3, 33),
            (65, &[3, 9], 3, 33),
            (66, &[3, 9, 9], 9, 44),
        ] {
            let refused = reason(&called(version, calls, callers));
            let most = 32;
            let of = Subject(of);
            assert_eq!(refused, SavedRefused::Calls { of, count, most });
            let words = format!(
                "the core refuses the state with 2: subject {of} has made {count} calls, and since version 2 a subject makes at most 32"
            );
            assert_eq!(refused.to_string(), words);
            let cause = std::error::Error::source(&refused).expect("a refusal");
            assert_eq!(cause.to_string(), Refusal::OutOfRange.to_string());
        }
        // a caller that is no subject, whose calls are as many as one makes or more: another reason (H11)
        for (calls, caller) in [(32, 16), (33, 16), (33, 200), (256, 255)] {
            let refused = reason(&called(version, calls, &[caller]));
            assert_eq!(refused, SavedRefused::State(Refusal::OutOfRange));
        }
        // with both reasons the subject is told
        let refused = reason(&called(version, 99, &[16, 15, 200]));
        let (of, count, most) = (Subject(15), 33, 32);
        assert_eq!(refused, SavedRefused::Calls { of, count, most });
        // a caller that would be a subject on another sheet
        let mut front = called(version, 33, &[7]);
        front.truncate(front.len() - 4);
        front[10] = 7;
        let refused = reason(&signed(&front));
        assert_eq!(refused, SavedRefused::State(Refusal::OutOfRange));
    }
}

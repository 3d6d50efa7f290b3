//! The choices that 01 leaves open, and the rules that are easily got wrong,
//! one test for each; the rule is named beside it.

use reference::check::{self, Reason};
use reference::entry;
use reference::model::Model;
use reference::raw::{RawState, RawTable};
use reference::relations::{Relation, Relations};
use reference::requests::{Got, Request};
use reference::restriction::{closed, sub, sup};
use reference::script::{self, run_whole};
use reference::sheet;
use reference::state::{Call, Place, State, MAX_CALLS, MAX_CALLS_EACH};
use reference::table::*;

const HEAD: &str = "guide=1\nsubjects=2\nmethods=1\ncats=0\n";

/// A sheet without categories from the lines of its types.
fn sheet_of(methods: usize, types: &[&[&str]]) -> String {
    let mut text = format!(
        "guide=1\nsubjects=3\nmethods={methods}\ncats=0\ntypes={}\n",
        types.len()
    );
    for (number, one) in types.iter().enumerate() {
        text.push_str(&format!("type={number}\n"));
        match one {
            [word] => text.push_str(&format!("rep={word}\ncat=0\n")),
            [own, states @ ..] => {
                text.push_str(&format!("rep=ref\ncat=0\nown={own}\n"));
                for state in states {
                    text.push_str(&format!("m={state}\n"));
                }
            }
            [] => unreachable!("a type has words"),
        }
    }
    text.push_str("end=sheet\n");
    text
}

fn table_of(methods: usize, types: &[&[&str]]) -> Table {
    sheet::read(sheet_of(methods, types).as_bytes()).unwrap()
}

fn run(sheet: &str, list: &str) -> String {
    String::from_utf8(script::run(format!("{sheet}{list}").as_bytes())).unwrap()
}

/// The reader's refusal of the right sheet with one line put in place of
/// another, as number and line index.
fn refused(sheet: &str, from: &str, to: &str) -> Option<(u32, usize)> {
    assert!(sheet.contains(from), "{from}");
    let text = sheet.replacen(from, to, 1);
    let (number, offset) = sheet::read(text.as_bytes()).err()?;
    let line = text[..offset].matches('\n').count();
    Some((number, line))
}

const PLAIN: &str = "guide=1\nsubjects=2\nmethods=1\ncats=3\nunder=0\nunder=1,0\nunder=2\n\
types=2\ntype=0\nrep=w32\ncat=0\ntype=1\nrep=ref\ncat=3\nown=no\nm=avail(0,1)1\nend=sheet\n";

#[test]
fn the_plain_sheet_is_right() {
    assert!(sheet::read(PLAIN.as_bytes()).is_ok());
}

#[test]
fn s1_guide() {
    for other in ["guide=0\n", "guide=2\n", "guide=99999999999999999999999\n"] {
        assert_eq!(refused(PLAIN, "guide=1\n", other), Some((2, 0)));
    }
    for other in [
        "guide=01\n",
        "guide=\n",
        "guide=1 \n",
        "Guide=1\n",
        " guide=1\n",
    ] {
        assert_eq!(refused(PLAIN, "guide=1\n", other), Some((1, 0)));
    }
}

#[test]
fn s2_s3_numbers() {
    let too_long = "subjects=99999999999999999999999\n";
    assert_eq!(refused(PLAIN, "subjects=2\n", too_long), Some((2, 1)));
    assert_eq!(refused(PLAIN, "subjects=2\n", "subjects=0\n"), Some((2, 1)));
    assert_eq!(
        refused(PLAIN, "subjects=2\n", "subjects=17\n"),
        Some((2, 1))
    );
    assert_eq!(refused(PLAIN, "subjects=2\n", "subjects=16\n"), None);
    assert_eq!(refused(PLAIN, "methods=1\n", "methods=0\n"), Some((2, 2)));
    assert_eq!(refused(PLAIN, "methods=1\n", "methods=17\n"), Some((2, 2)));
    assert_eq!(refused(PLAIN, "cats=3\n", "cats=32\n"), Some((2, 3)));
    assert_eq!(refused(PLAIN, "cats=3\n", "cats=00\n"), Some((1, 3)));
    assert_eq!(refused(PLAIN, "types=2\n", "types=0\n"), Some((2, 7)));
    assert_eq!(refused(PLAIN, "types=2\n", "types=49\n"), Some((2, 7)));
    assert_eq!(refused(PLAIN, "cat=0\n", "cat=-1\n"), Some((1, 10)));
    assert_eq!(refused(PLAIN, "cat=0\n", "cat=+1\n"), Some((1, 10)));
    assert_eq!(refused(PLAIN, "cat=0\n", "cat=4\n"), Some((2, 10)));
    assert_eq!(refused(PLAIN, "cat=3\n", "cat=03\n"), Some((1, 13)));
    assert_eq!(refused(PLAIN, "type=1\n", "type=0\n"), Some((2, 11)));
    assert_eq!(refused(PLAIN, "type=1\n", "type=2\n"), Some((2, 11)));
    assert_eq!(refused(PLAIN, "type=1\n", "type=x\n"), Some((1, 11)));
}

#[test]
fn s5_s11_s12_lines_with_several_faults() {
    let m = "m=avail(0,1)1\n";
    for (line, number) in [
        ("m=avail(0,0,99)0\n", 2),
        ("m=avail(0,0,0,99)0\n", 2),
        ("m=avail(99,0,0,0)0\n", 2),
        ("m=avail(0,0,0,0)99\n", 2),
        ("m=avail(0,0,0,0,99)0\n", 1),
        ("m=avail(0,0,0,0,0)0\n", 1),
        ("m=optional(0,0,0,0,0)-\n", 1),
        ("m=avail(0,0,0,0,0,0)0\n", 1),
        ("m=avail(0,0,99)x\n", 1),
        ("m=avail(0,0,0,)0\n", 1),
        ("m=avail(0,0,0,01)0\n", 1),
        ("m=avail(0,99)x\n", 1),
        ("m=avail(0,2)0\n", 2),
        ("m=avail(0,1)2\n", 2),
        ("m=avail(99999999999999999999999)-\n", 2),
        ("m=avail(0,)0\n", 1),
        ("m=avail(,0)0\n", 1),
        ("m=avail(,)0\n", 1),
        ("m=avail()\n", 1),
        ("m=avail()--\n", 1),
        ("m=avail()-1\n", 1),
        ("m=avail\n", 1),
        ("m=avail(-)0\n", 1),
        ("m=avail(0)0)0\n", 1),
        ("m=availx()0\n", 1),
        ("m=denied()0\n", 1),
        ("m=unavail()-\n", 1),
        ("m=unavail \n", 1),
        ("m=denied\r\n", 1),
        ("m=optional(01)-\n", 1),
        ("m=\n", 1),
        ("rep=ref\n", 1),
    ] {
        assert_eq!(refused(PLAIN, m, line), Some((number, 15)), "{line:?}");
    }
    for line in [
        "m=denied\n",
        "m=unavail\n",
        "m=optional()-\n",
        "m=avail(1,1)-\n",
        "m=avail(0,1,0)1\n",
        "m=optional(1,0,0,1)-\n",
    ] {
        assert_eq!(refused(PLAIN, m, line), None, "{line:?}");
    }
    for (line, number) in [
        ("under=2\n", 3),
        ("under=3\n", 3),
        ("under=0,2\n", 3),
        ("under=4\n", 2),
        ("under=9,2\n", 2),
        ("under=2,9\n", 2),
        ("under=0,0,0\n", 1),
        ("under=9,x\n", 1),
        ("under=\n", 1),
        ("under=0,\n", 1),
        ("under=1 ,0\n", 1),
    ] {
        assert_eq!(
            refused(PLAIN, "under=1,0\n", line),
            Some((number, 5)),
            "{line:?}"
        );
    }
    assert_eq!(refused(PLAIN, "under=1,0\n", "under=0,0\n"), None);
}

#[test]
fn s6_first_wrong_line_and_own_last() {
    let own = PLAIN.replace("own=no", "own=yes");
    let last = own.len() - "end=sheet\n".len();
    assert_eq!(sheet::read(own.as_bytes()), Err((3, last)));
    let extra = format!("{own}x\n");
    assert_eq!(sheet::read(extra.as_bytes()), Err((1, own.len())));
    assert_eq!(refused(&own, "cat=3\n", "cat=9\n"), Some((2, 13)));
    // Both wrong: the first line is named, whatever its number.
    let two = PLAIN
        .replace("subjects=2", "subjects=99")
        .replace("rep=w32", "rep=w16");
    assert_eq!(sheet::read(two.as_bytes()), Err((2, 8)));
}

#[test]
fn s7_to_s10_missing_and_extra_lines() {
    assert_eq!(refused(PLAIN, "cats=3\n", ""), Some((1, 3)));
    assert_eq!(refused(PLAIN, "own=no\n", ""), Some((1, 14)));
    assert_eq!(refused(PLAIN, "cat=0\n", "cat=0\nown=no\n"), Some((1, 11)));
    assert_eq!(sheet::read(b""), Err((1, 0)));
    assert_eq!(sheet::read(b"x"), Err((1, 0)));
    let cut = PLAIN.strip_suffix("end=sheet\n").unwrap();
    assert_eq!(sheet::read(cut.as_bytes()), Err((1, cut.len())));
    let without = PLAIN.strip_suffix('\n').unwrap();
    assert_eq!(sheet::read(without.as_bytes()), Err((1, cut.len())));
    // A line without LF is 1, whatever its text and range.
    assert_eq!(sheet::read(b"guide=1\nsubjects=99"), Err((1, 8)));
    for behind in ["\n", "x", "x\n", "do=new 0 0 0\n"] {
        let text = format!("{PLAIN}{behind}");
        assert_eq!(sheet::read(text.as_bytes()), Err((1, PLAIN.len())));
    }
}

/// S25.
#[test]
fn number_types_have_no_own_and_no_methods() {
    assert_eq!(refused(PLAIN, "rep=w32\n", "rep=w64\n"), None);
    assert_eq!(refused(PLAIN, "rep=w32\n", "rep=ref\n"), Some((1, 11)));
    assert_eq!(refused(PLAIN, "rep=ref\n", "rep=w64\n"), Some((1, 14)));
    assert_eq!(refused(PLAIN, "rep=w32\n", "rep=w16\n"), Some((1, 9)));
}

/// P2, P3.
#[test]
fn early_and_unended_sheets_in_scripts() {
    assert_eq!(run("guide=1\nend=sheet\n", "do=new 0 0 0\n"), "no=1\n");
    assert_eq!(run(HEAD, ""), "no=1\n");
    assert_eq!(run(PLAIN.strip_suffix('\n').unwrap(), ""), "no=1\n");
    // P2: whatever stands before that line.
    assert_eq!(run("guide=2\nend=sheet\n", ""), "no=2\n");
}

/// W1, W5.
#[test]
fn write_of_a_handed_in_table() {
    let mut table = table_of(1, &[&["no", "avail()0"], &["no", "optional()1"]]);
    let text = sheet::text(&table);
    sub(&mut table, 1, 0).unwrap();
    assert_eq!(table.types.len(), 3);
    assert_eq!(sheet::text(&table), text);
    let mut raw = RawTable::of(&table);
    let mut buffer = vec![7; text.len()];
    assert_eq!(entry::write(&raw, &mut buffer), Ok(text.len()));
    raw.subjects = 17;
    let mut short = [7; 3];
    assert_eq!(entry::write(&raw, &mut short), Err(2));
    assert_eq!(short, [7; 3]);
}

/// Q17.
#[test]
fn types_of_an_accepted_crossing_stay() {
    // Sub(1,2) is derived; the class 0 is a subtype of it, so nothing is made.
    let sheet = sheet_of(
        2,
        &[
            &["no", "unavail", "avail()-"],
            &["no", "optional()-", "optional()-"],
            &["no", "denied", "avail()-"],
        ],
    );
    let input = format!("{sheet}do=new 0 0 2\ndo=move 0 0 0 1\n");
    let done = run_whole(input.as_bytes());
    assert_eq!(done.output, b"got=0 0\ngot=1 0\n");
    let state = done.model.unwrap().state;
    assert_eq!(state.table.types.len(), 4);
    assert_eq!(state.places.len(), 1);
}

/// X3.
#[test]
fn own_target_unwraps_though_s_is_a_subtype() {
    let sheet = sheet_of(
        1,
        &[
            &["no", "avail()-"],
            &["no", "unavail"],
            &["yes", "unavail"],
            &["yes", "denied"],
        ],
    );
    // Cell 1 has type 2 (own) behind an adapter; 2 is a subtype of 3.
    let output = run(&sheet, "do=new 0 0 1\ndo=move 0 0 0 2\ndo=move 0 1 0 3\n");
    assert_eq!(output, "got=0 1\ngot=1 2\ngot=2 0\n");
}

/// D10.
#[test]
fn closed_and_an_inner_sub_are_two_types() {
    let mut table = table_of(
        2,
        &[
            &["no", "avail()0", "avail()0"],
            &["no", "avail()1", "unavail"],
        ],
    );
    let adapter = closed(&mut table, 1, 0).unwrap();
    assert_eq!(adapter, 2);
    // Its answer is Sub(1,0), a type of its own with the same methods.
    assert_eq!(table.types.len(), 4);
    assert_eq!(table.types[2].permits(0).unwrap().answer, Some(3));
    assert_eq!(table.types[3].permits(0).unwrap().answer, Some(3));
    assert_eq!(sub(&mut table, 1, 0), Ok(3));
    assert_eq!(closed(&mut table, 1, 0), Ok(2));
}

/// D8, D9.
#[test]
fn a_method_not_avail_in_v_derives_nothing() {
    let mut table = table_of(
        2,
        &[
            &["no", "optional()0", "avail()0"],
            &["no", "optional()1", "optional()1"],
        ],
    );
    let adapter = closed(&mut table, 1, 0).unwrap();
    assert_eq!(table.types[adapter].methods[0], MethodState::Unavail);
    assert!(table.types[adapter].methods[1].is_avail());
}

/// D1, D3, D7.
#[test]
fn categories_of_derived_types() {
    let text = sheet_of(1, &[&["no", "avail()-"], &["no", "denied"]])
        .replace("cats=0", "cats=2\nunder=0\nunder=0")
        .replacen("cat=0", "cat=1", 1);
    let mut table = sheet::read(text.as_bytes()).unwrap();
    table.types[1].category = 2;
    let lower = sub(&mut table, 0, 1).unwrap();
    let upper = sup(&mut table, 0, 1).unwrap();
    let shut = closed(&mut table, 0, 1).unwrap();
    assert_eq!(table.types[lower].category, 1);
    assert_eq!(table.types[upper].category, 2);
    assert_eq!(table.types[shut].category, 1);
}

/// D2, D4.
#[test]
fn restriction_of_states() {
    // T: denied optional avail unavail, S: avail denied unavail optional.
    let mut table = table_of(
        4,
        &[
            &["no", "denied", "optional()-", "avail()-", "unavail"],
            &["no", "avail()-", "denied", "unavail", "optional()-"],
        ],
    );
    let lower = sub(&mut table, 0, 1).unwrap();
    let upper = sup(&mut table, 0, 1).unwrap();
    use MethodState::{Denied, Unavail};
    assert_eq!(
        table.types[lower].methods,
        [Denied, Unavail, Unavail, Unavail]
    );
    assert_eq!(
        table.types[upper].methods,
        [Denied, Denied, Unavail, Denied]
    );
}

/// D12, D13.
#[test]
fn restriction_of_itself_and_of_numbers() {
    let mut table = table_of(1, &[&["w32"], &["w64"], &["no", "avail(2)2"]]);
    assert_eq!(sub(&mut table, 2, 2), Ok(2));
    assert_eq!(sup(&mut table, 2, 2), Ok(2));
    assert_eq!(sub(&mut table, 0, 1), Ok(0));
    assert_eq!(sup(&mut table, 0, 1), Ok(1));
    assert_eq!(table.types.len(), 3);
}

/// D5, D6, D16, D17.
#[test]
fn restriction_takes_numbers_in_order() {
    // Sub(1,0): method 0's argument Sup(2,3), its answer Sub(3,2), each to its
    // end before the next.
    let mut table = table_of(
        1,
        &[
            &["no", "avail(2)2"],
            &["no", "avail(3)3"],
            &["no", "avail(2)2"],
            &["no", "avail(3)3"],
        ],
    );
    assert_eq!(sub(&mut table, 1, 0), Ok(4));
    let key = |kind, left, right| Key { kind, left, right };
    assert_eq!(
        table.keys,
        [
            key(Kind::Sub, 1, 0),
            key(Kind::Sup, 2, 3),
            key(Kind::Sub, 3, 2)
        ]
    );
    let signature = |argument, answer| Signature {
        arguments: vec![argument],
        answer: Some(answer),
    };
    assert_eq!(table.types[4].permits(0), Some(&signature(5, 6)));
    // Sup(2,3) has argument Sub(3 argument, 2 argument) = Sub(3,2).
    assert_eq!(table.types[5].permits(0), Some(&signature(6, 5)));
    assert_eq!(table.types[6].permits(0), Some(&signature(5, 6)));
}

/// C6.
#[test]
fn arguments_are_looked_up_first() {
    let sheet = sheet_of(1, &[&["no", "avail(0,0)-"]]);
    // Cell 1 would be made by the first argument: unknown, 15.
    assert_eq!(
        run(&sheet, "do=new 0 0 0\ndo=call 0 0 0 0 1\n"),
        "got=0 0\nno=15\n"
    );
    assert_eq!(
        run(
            &sheet,
            "do=new 0 0 0\ndo=call 0 0 0 0 0\ndo=call 0 2 0 1 2\n"
        ),
        "got=0 0\ngot=0 0\ngot=1 0\n"
    );
}

/// T14, S13: own at any position.
#[test]
fn own_in_a_signature_at_each_position() {
    for position in 0..MAX_ARGUMENTS {
        let mut list = ["1"; MAX_ARGUMENTS];
        list[position] = "0";
        let state = format!("avail({})-", list.join(","));
        let text = sheet_of(1, &[&["yes", "denied"], &["no", &state]]);
        let last = text.len() - "end=sheet\n".len();
        assert_eq!(sheet::read(text.as_bytes()), Err((3, last)), "{position}");
    }
}

/// B9, B13, B17: the slots that a count says are used, and those behind it 0.
#[test]
fn arguments_stand_in_their_slots() {
    let states = [
        "avail()4",
        "avail(4)4",
        "avail(4,3)4",
        "avail(4,3,2)4",
        "avail(4,3,2,1)4",
    ];
    let one = |state: &'static str| ["no", state];
    let types = states.map(one);
    let types: Vec<&[&str]> = types.iter().map(|one| &one[..]).collect();
    let raw = RawTable::of(&table_of(1, &types));
    let bytes = [
        [2, 0, 0, 0, 0, 0, 5],
        [2, 1, 4, 0, 0, 0, 5],
        [2, 2, 4, 3, 0, 0, 5],
        [2, 3, 4, 3, 2, 0, 5],
        [2, 4, 4, 3, 2, 1, 5],
    ];
    for (number, bytes) in bytes.into_iter().enumerate() {
        assert_eq!(raw.method(number, 0), bytes);
    }
}

/// H3, H6, H7, H15: counts of arguments, and what stands in each slot, of a table handed in.
#[test]
fn slots_of_handed_in_signatures() {
    let table = table_of(1, &[&["no", "avail()-"], &["yes", "denied"]]);
    let with = |state: u8, count: u8, slots: [u8; 4]| {
        let mut raw = RawTable::of(&table);
        let [a, b, c, d] = slots;
        raw.method_mut(0, 0)
            .copy_from_slice(&[state, count, a, b, c, d, 0]);
        check::table(&raw).err()
    };
    for state in [1, 2] {
        for count in 0..=4 {
            assert_eq!(with(state, count, [0; 4]), None);
        }
        for count in [5, 6, 255] {
            assert_eq!(with(state, count, [0; 4]), Some(Reason::TooManyArguments));
        }
        for slot in 0..4 {
            let mut slots = [0; 4];
            slots[slot] = 2;
            assert_eq!(with(state, slot as u8, slots), None);
            assert_eq!(
                with(state, slot as u8 + 1, slots),
                Some(Reason::ArgumentUnknown)
            );
            slots[slot] = 1;
            assert_eq!(with(state, slot as u8, slots), None);
            assert_eq!(
                with(state, slot as u8 + 1, slots),
                Some(Reason::OwnInSignature)
            );
        }
    }
    for state in [0, 3] {
        assert_eq!(with(state, 255, [255; 4]), None);
    }
}

/// R6: a relation is asked of each argument, with the sides exchanged; R4: of equally many.
#[test]
fn every_argument_is_compared() {
    // 0 has more than 1, so 0 is a subtype of 1 and not the reverse
    for position in 0..MAX_ARGUMENTS {
        let list = |special: &str| {
            let mut list = ["0"; MAX_ARGUMENTS];
            list[position] = special;
            format!("avail({})-", list.join(","))
        };
        let (takes_more, takes_less) = (list("0"), list("1"));
        let table = table_of(
            1,
            &[
                &["no", "avail()-"],
                &["no", "denied"],
                &["no", &takes_more],
                &["no", &takes_less],
                &["no", "avail(0,0,0)-"],
            ],
        );
        let relations = Relations::of(&table);
        let subtype = |t, s| relations.holds(Relation::Subtype, t, s);
        assert!(subtype(2, 3) && !subtype(3, 2), "{position}");
        assert!(!relations.holds(Relation::Free, 2, 4) && !relations.holds(Relation::Free, 4, 2));
    }
}

/// D5, D6, D17: four arguments are derived in order, each before the next, and then the answer.
#[test]
fn four_arguments_of_derived_types() {
    // Pairs of types that differ in what they say of method 1 alone.
    let plain: [&[&str]; 2] = [&["no", "denied", "avail()-"], &["no", "denied", "denied"]];
    let types: Vec<&[&str]> = [
        &["no", "avail(2,4,6,8)10", "denied"][..],
        &["no", "avail(3,5,7,9)11", "denied"],
    ]
    .into_iter()
    .chain(plain.into_iter().cycle().take(10))
    .collect();
    let mut table = table_of(2, &types);
    let key = |kind, left, right| Key { kind, left, right };
    let signature = |first: usize| Signature {
        arguments: (first..first + 4).collect(),
        answer: Some(first + 4),
    };
    assert_eq!(sub(&mut table, 0, 1), Ok(12));
    assert_eq!(table.types[12].permits(0), Some(&signature(13)));
    assert_eq!(sup(&mut table, 0, 1), Ok(18));
    assert_eq!(table.types[18].permits(0), Some(&signature(19)));
    assert_eq!(closed(&mut table, 0, 1), Ok(24));
    assert_eq!(table.types[24].permits(0), Some(&signature(13)));
    let of_arguments = |kind| [(3, 2), (5, 4), (7, 6), (9, 8)].map(|(s, t)| key(kind, s, t));
    assert_eq!(table.keys[1..5], of_arguments(Kind::Sup));
    assert_eq!(table.keys[5], key(Kind::Sub, 10, 11));
    assert_eq!(table.keys[7..11], of_arguments(Kind::Sub));
    assert_eq!(table.keys[11], key(Kind::Sup, 10, 11));
}

/// C14, A9.
#[test]
fn numbers_meet_16_at_any_w32_layer() {
    // The cell's type takes w64, the class w32.
    let sheet = sheet_of(
        1,
        &[
            &["w32"],
            &["w64"],
            &["no", "avail(0)0"],
            &["no", "avail(1)1"],
        ],
    );
    let list = |value: i64| format!("do=new 0 2 3\ndo=call 0 0 0 {value}\n");
    assert_eq!(run(&sheet, &list(2147483648)), "got=0 1\nno=16\n");
    assert_eq!(run(&sheet, &list(2147483647)), "got=0 1\ngot=0 1\n");
    let answer = |value: i64| format!("{}do=answer 0 0 {value}\n", list(0));
    assert_eq!(
        run(&sheet, &answer(-2147483649)),
        "got=0 1\ngot=0 1\nno=16\n"
    );
    assert_eq!(
        run(&sheet, &answer(-2147483648)),
        "got=0 1\ngot=0 1\ngot=-2147483648\n"
    );
}

/// A4, A5, A13.
#[test]
fn nothing_due() {
    let sheet = sheet_of(1, &[&["no", "avail()-"]]);
    let list = "do=new 0 0 0\ndo=call 0 0 0\ndo=answer 0 0 0\ndo=answer 0 0 -\ndo=answer 0 0 -\n";
    assert_eq!(run(&sheet, list), "got=0 0\ngot=0 0\nno=15\ngot=-\nno=17\n");
    // A handed-in call of a method the cell's type does not permit.
    let table = table_of(1, &[&["no", "avail()0"], &["no", "denied"]]);
    let mut state = State::of_sheet(table);
    let mut model = Model::new(state.clone());
    model.request(&new(0, 0, 1)).unwrap();
    state = model.state;
    state.calls.push(Call {
        caller: 1,
        cell: 0,
        method: 0,
        answered: false,
    });
    let mut raw = RawState::of(&state);
    let answer = |value| Request::Answer {
        subject: 0,
        call: 0,
        value,
    };
    assert_eq!(entry::request(&mut raw, &answer(Some(0))), Err(15));
    assert_eq!(entry::request(&mut raw, &answer(None)), Ok(Got::Nothing));
    assert_eq!(entry::request(&mut raw, &answer(None)), Err(17));
}

fn new(subject: i64, class: i64, type_: i64) -> Request {
    Request::New {
        subject,
        class,
        type_,
    }
}

fn call(cell: i64, arguments: &[i64]) -> Request {
    Request::Call {
        subject: 0,
        cell,
        method: 0,
        arguments: arguments.to_vec(),
    }
}

/// A state with one object of class 0, one adapter of a type, and cell 0 of a
/// type holding the adapter; cell 1 of type 0 holding the object.
fn handed_in(table: Table, adapter: usize, type_: usize) -> RawState {
    let mut model = Model::new(State::of_sheet(table));
    model.request(&new(0, 0, 0)).unwrap();
    let mut state = model.state;
    state.places.push(Place::Adapter {
        behind: 0,
        closed: adapter,
    });
    let mut first = state.cells[0];
    first.type_ = type_;
    first.place = 1;
    state.cells.insert(0, first);
    let raw = RawState::of(&state);
    assert_eq!(check::state(&raw), Ok(state));
    raw
}

/// C15, C16, A9.
#[test]
fn unfit_layers_of_handed_in_states() {
    // 0 class takes a reference, 1 w32, 2 takes a number, 3 takes nothing,
    // 4 denies, 5 answers with a number, 6 with a reference.
    let table = table_of(
        1,
        &[
            &["no", "avail(0)0"],
            &["w32"],
            &["no", "avail(1)1"],
            &["no", "avail()-"],
            &["no", "denied"],
            &["no", "avail(0)1"],
            &["no", "avail(1)0"],
        ],
    );
    // A number where the class has a reference: 19; an unfit adapter: 19.
    let mut raw = handed_in(table.clone(), 2, 2);
    assert_eq!(entry::request(&mut raw, &call(0, &[5])), Err(19));
    assert_eq!(entry::request(&mut raw, &call(0, &[1 << 40])), Err(16));
    for adapter in [2, 3, 4] {
        let mut raw = handed_in(table.clone(), adapter, 0);
        assert_eq!(
            entry::request(&mut raw, &call(0, &[1])),
            Err(19),
            "{adapter}"
        );
    }
    // Without arguments nothing crosses.
    let mut raw = handed_in(table.clone(), 4, 3);
    let got = Got::Call {
        call: 0,
        adapters: 1,
    };
    assert_eq!(entry::request(&mut raw, &call(0, &[])), Ok(got));
    // Answers: the class's answer type is the first crossing.
    let answer = |value| Request::Answer {
        subject: 0,
        call: 0,
        value: Some(value),
    };
    let with_call = |adapter, type_| {
        let mut raw = handed_in(table.clone(), adapter, type_);
        raw.calls = 1;
        raw.call_mut(0).copy_from_slice(&[0, 0, 0, 0]);
        raw
    };
    // Due a number, the class answers with a reference: 8.
    assert_eq!(entry::request(&mut with_call(5, 5), &answer(3)), Err(8));
    // Due a reference, an adapter without an answer or with a number: 19.
    assert_eq!(entry::request(&mut with_call(3, 6), &answer(1)), Err(19));
    assert_eq!(entry::request(&mut with_call(2, 6), &answer(1)), Err(19));
    // Due a reference that the subject does not hold: 15 before.
    assert_eq!(entry::request(&mut with_call(2, 6), &answer(9)), Err(15));
}

/// H15.
#[test]
fn bytes_that_are_not_looked_at() {
    let table = table_of(2, &[&["w32"], &["no", "denied", "unavail"]]);
    let mut raw = RawTable::of(&table);
    let right = raw.clone();
    raw.entry_mut(0)[2..].fill(255);
    raw.entry_mut(1)[3..16].fill(255);
    raw.method_mut(1, 0)[1..].fill(255);
    raw.method_mut(1, 1)[1..].fill(255);
    raw.method_mut(1, 2).fill(255);
    raw.entry_mut(2).fill(255);
    raw.broader.fill(255);
    assert_eq!(check::table(&raw), Ok(table));
    assert_eq!(entry::compare(&raw, 1, 1), entry::compare(&right, 1, 1));
}

/// H14, D12, D14.
#[test]
fn derived_types_are_taken_at_their_word() {
    let mut table = table_of(1, &[&["no", "avail()0"], &["no", "unavail"]]);
    // A known Sub(1,0) that says something else, twice, and a Sub(1,1).
    for (kind, left, right) in [(Kind::Sub, 1, 1), (Kind::Sub, 1, 0), (Kind::Sub, 1, 0)] {
        table.types.push(table.types[0].clone());
        table.keys.push(Key { kind, left, right });
    }
    let mut raw = RawState::of(&State::of_sheet(table.clone()));
    // R is type 3, the lowest known Sub(1,0): the class passes as it is.
    let got = Got::Cell { cell: 0, place: 0 };
    assert_eq!(entry::request(&mut raw, &new(0, 0, 1)), Ok(got));
    assert_eq!(raw.table.types, 5);
    assert_eq!(sub(&mut table, 1, 1), Ok(1));
    // Derived own is no reason for 2, but stands in no signature.
    table.types[3].own = true;
    assert!(check::table(&RawTable::of(&table)).is_ok());
    table.types[4].methods[0] = MethodState::Avail(Signature {
        arguments: vec![3],
        answer: None,
    });
    assert_eq!(
        check::table(&RawTable::of(&table)),
        Err(Reason::OwnInSignature)
    );
}

/// H14, X7.
#[test]
fn known_number_for_r_is_10() {
    let mut table = table_of(1, &[&["no", "avail()0"], &["no", "unavail"]]);
    table.types.push(Type::number(Representation::W64, 0));
    table.keys.push(Key {
        kind: Kind::Sub,
        left: 1,
        right: 0,
    });
    let mut raw = RawState::of(&State::of_sheet(table));
    assert_eq!(entry::request(&mut raw, &new(0, 0, 1)), Err(10));
}

/// A state of sixteen subjects, each with a cell of its own, and so many calls of each, made by
/// turns; every so-manieth is answered.
fn called(counts: [usize; MAX_SUBJECTS], answered: Option<usize>) -> RawState {
    let text = sheet_of(1, &[&["no", "avail()-"]]).replace("subjects=3", "subjects=16");
    let table = sheet::read(text.as_bytes()).unwrap();
    let mut model = Model::new(State::of_sheet(table));
    for subject in 0..16 {
        model.request(&new(subject, 0, 0)).unwrap();
    }
    let mut state = model.state;
    for turn in 0..counts.into_iter().max().unwrap() {
        for caller in (0..MAX_SUBJECTS).filter(|caller| turn < counts[*caller]) {
            let every = |step: usize| state.calls.len() % step == 0;
            state.calls.push(Call {
                caller,
                cell: caller,
                method: 0,
                answered: answered.is_some_and(every),
            });
        }
    }
    RawState::of(&state)
}

fn call_of(subject: i64) -> Request {
    Request::Call {
        subject,
        cell: subject,
        method: 0,
        arguments: Vec::new(),
    }
}

/// B25, B28, B29: 512 records of four bytes.
#[test]
fn bytes_of_calls() {
    let raw = called([MAX_CALLS_EACH; MAX_SUBJECTS], Some(3));
    assert_eq!(raw.call_bytes.len(), 2_048);
    assert_eq!(raw.calls, 512);
    assert_eq!(raw.call(510), [14, 14, 0, 1]);
    assert_eq!(raw.call_bytes[2_044..], [15, 15, 0, 0]);
}

/// H17: at most 32 calls of one caller, answered or not; C7 on what passes.
#[test]
fn calls_of_one_caller_handed_in() {
    for answered in [None, Some(1), Some(2), Some(5)] {
        for caller in [0, 7, 15] {
            for others in [0, 1, 31] {
                let mut counts = [others; MAX_SUBJECTS];
                counts[caller] = MAX_CALLS_EACH + 1;
                let mut raw = called(counts, answered);
                assert_eq!(check::state(&raw), Err(Reason::TooManyCallsOfOne));
                let before = raw.clone();
                for subject in 0..16 {
                    assert_eq!(entry::request(&mut raw, &call_of(subject)), Err(2));
                }
                assert_eq!(entry::offers(&raw, 0, &[]), Err(2));
                assert!(raw == before);
                counts[caller] = MAX_CALLS_EACH;
                let mut raw = called(counts, answered);
                let there = raw.calls as usize;
                assert_eq!(entry::request(&mut raw, &call_of(caller as i64)), Err(18));
                let other = (caller as i64 + 1) % 16;
                let got = Got::Call {
                    call: there,
                    adapters: 0,
                };
                assert_eq!(entry::request(&mut raw, &call_of(other)), Ok(got));
                assert_eq!(raw.calls as usize, there + 1);
            }
        }
    }
}

/// H1, H15: 512 calls are the most, and what stands past the count is not looked at.
#[test]
fn counts_of_calls_handed_in() {
    let full = called([MAX_CALLS_EACH; MAX_SUBJECTS], None);
    assert!(check::state(&full).is_ok());
    for subject in 0..16 {
        assert_eq!(
            entry::request(&mut full.clone(), &call_of(subject)),
            Err(18)
        );
    }
    for count in [513, 514, 544, 1_024, 1 << 16, u32::MAX] {
        let mut raw = full.clone();
        raw.calls = count;
        assert_eq!(check::state(&raw), Err(Reason::CallsCount), "{count}");
        assert_eq!(entry::request(&mut raw, &call_of(0)), Err(2));
    }
    // 512 with one more of one caller and one less of another
    let mut raw = full.clone();
    raw.call_mut(MAX_CALLS - 1)[0] = 3;
    assert_eq!(check::state(&raw), Err(Reason::TooManyCallsOfOne));
    raw.calls = MAX_CALLS as u32 - 1;
    assert!(check::state(&raw).is_ok());
    assert!(entry::request(&mut raw.clone(), &call_of(15)).is_ok());
    assert_eq!(entry::request(&mut raw, &call_of(3)), Err(18));
}

/// C7, H16: the caller of a record counts, not who holds its cell or owns what is behind it.
#[test]
fn the_caller_of_a_record_counts() {
    let mut counts = [0; MAX_SUBJECTS];
    counts[4] = MAX_CALLS_EACH;
    let mut raw = called(counts, None);
    for number in 0..MAX_CALLS_EACH {
        raw.call_mut(number)[1] = 5;
    }
    assert_eq!(entry::request(&mut raw.clone(), &call_of(4)), Err(18));
    assert!(entry::request(&mut raw, &call_of(5)).is_ok());
}

/// Q12, C4.
#[test]
fn operands_of_any_size() {
    let sheet = sheet_of(1, &[&["no", "avail()-"]]);
    for operand in [i64::MIN, -1, 3, 256, 1 << 32, i64::MAX] {
        assert_eq!(run(&sheet, &format!("do=new {operand} 0 0\n")), "no=5\n");
        assert_eq!(run(&sheet, &format!("do=new 0 {operand} 0\n")), "no=7\n");
        assert_eq!(run(&sheet, &format!("do=new 0 0 {operand}\n")), "no=7\n");
        assert_eq!(run(&sheet, &format!("do=move 0 {operand} 0 0\n")), "no=6\n");
        assert_eq!(run(&sheet, &format!("do=answer 0 {operand} 0\n")), "no=6\n");
    }
    let mut model = Model::new(State::of_sheet(table_of(1, &[&["no", "avail()-"]])));
    model.request(&new(0, 0, 0)).unwrap();
    assert_eq!(model.request(&call(0, &[0; 300])), Err(15));
}

/// R13, R14, H1.
#[test]
fn compare_refuses() {
    let table = table_of(1, &[&["w32"], &["w64"]]);
    let mut raw = RawTable::of(&table);
    assert_eq!(entry::compare(&raw, 0, 1), Ok([false, true, true, true]));
    assert_eq!(entry::compare(&raw, 0, 0), Ok([true; 4]));
    assert_eq!(entry::compare(&raw, 0, 2), Err(7));
    assert_eq!(entry::compare(&raw, -1, 0), Err(7));
    raw.types = 129;
    assert_eq!(entry::compare(&raw, 0, 2), Err(2));
}

/// R3, R11.
#[test]
fn recursive_types_are_related_unless_refuted() {
    // 0 and 1 name each other and only differ in names; 2 denies deep inside.
    let table = table_of(
        2,
        &[
            &["no", "avail()1", "avail(0)-"],
            &["no", "avail()0", "avail(1)-"],
            &["no", "avail()3", "avail(2)-"],
            &["no", "avail()2", "denied"],
        ],
    );
    let relations = Relations::of(&table);
    assert!(relations.holds(Relation::Subtype, 0, 1));
    assert!(relations.holds(Relation::Subtype, 1, 0));
    // 3 needs no method 1 of 2, but argument 0 of 2 comes back the other way.
    assert!(relations.holds(Relation::Subtype, 3, 0) == relations.holds(Relation::Subtype, 2, 1));
    assert!(!relations.holds(Relation::Subtype, 2, 0));
    assert!(!relations.holds(Relation::Loose, 0, 3));
    assert!(relations.holds(Relation::Free, 0, 3));
}

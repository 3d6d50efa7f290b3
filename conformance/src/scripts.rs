//! Scripts: damage to them, what they meet, and the proved program beside the reference.

use crate::process::{built, least_stack, limited_still, limited_to, printed_or_said, run};
use crate::worst_scripts::{largest_sheet, layered, nested, nested_behind_calls};
use reference::coverage::Seen;
use reference::damage;
use reference::external::difference;
use reference::generators::{generate, Profile};
use reference::random::Random;
use reference::refusal::Refusal;
use reference::script::{self, Run, MAX_INPUT};
use std::process::Output;
use std::sync::OnceLock;

/// The most stack that the program may be given, in KB.
const MOST: usize = 1024;

/// How many bytes longer than its input an output can be: `no=1` and LF for no input at all.
pub const LONGER: usize = 5;

/// The scripts that need the most stack known.
pub fn deepest() -> [(&'static str, Vec<u8>); 4] {
    [
        ("118 new types nested", nested()),
        (
            "118 new types nested, 511 calls made",
            nested_behind_calls(),
        ),
        ("four references through 40 adapters", layered(3)),
        ("the largest sheet", largest_sheet()),
    ]
}

/// The program in so many KB.
pub fn in_stack(stack: usize, input: &[u8]) -> Output {
    run(limited_to(stack, &built("script")), input)
}

/// The stack that a script needs, in KB.
pub fn need(input: &[u8]) -> usize {
    least_stack(MOST, |stack| {
        let output = run(limited_still(stack, &built("script")), input);
        output.status.success()
    })
}

/// The stack that every run of the program gets here, in KB: twice what the deepest script needs, which is found once, and never
/// more than the most. That twice is not more is a test of its own.
pub fn stack() -> usize {
    static STACK: OnceLock<usize> = OnceLock::new();
    *STACK.get_or_init(|| {
        let needs = deepest().map(|(_, input)| need(&input));
        MOST.min(2 * needs.into_iter().max().expect("four scripts"))
    })
}

/// What the proved program prints. A bad end is something else, so that it too is shown on a small input.
pub fn proved(input: &[u8]) -> Vec<u8> {
    printed_or_said(in_stack(stack(), input))
}

/// What was met by scripts that were answered alike.
#[derive(Default)]
pub struct Met {
    pub inputs: u64,
    pub requests: u64,
    pub seen: Seen,
    /// Refused sheets by number.
    pub sheets: [u64; 4],
    pub too_long: u64,
    /// Scripts ended by a malformed line.
    pub malformed: u64,
}

impl Met {
    /// Puts an input to a program and to the reference, whose run is returned; a difference is shown on the smallest input found.
    pub fn same(&mut self, program: &dyn Fn(&[u8]) -> Vec<u8>, input: &[u8], from: &str) -> Run {
        let ours = script::run_whole(input);
        if program(input) != ours.output {
            panic!("{from}: {:?}", difference(input, program, &script::run));
        }
        self.note(input, &ours);
        ours
    }

    fn note(&mut self, input: &[u8], run: &Run) {
        assert!(run.output.len() <= input.len() + LONGER);
        self.inputs += 1;
        self.requests += run.requests.len() as u64;
        for (request, result) in run.requests.iter().zip(&run.results) {
            self.seen.request(request, result);
        }
        let lines = run.output.iter().filter(|byte| **byte == b'\n').count();
        if run.model.is_some() {
            self.malformed += u64::from(lines > run.requests.len());
        } else if input.len() > MAX_INPUT {
            self.too_long += 1;
        } else {
            self.sheets[usize::from(run.output[3] - b'0')] += 1;
        }
    }

    /// How often a number was printed.
    pub fn number(&self, number: Refusal) -> u64 {
        let of_sheets = self.sheets.get(number as usize).copied().unwrap_or(0);
        let of_input = match number {
            1 => self.malformed,
            2 => self.too_long,
            _ => 0,
        };
        of_sheets + of_input + self.seen.number(number)
    }

    /// The numbers of 1 to 19 that were not met.
    pub fn missing(&self) -> Vec<Refusal> {
        (1..=19).filter(|one| self.number(*one) == 0).collect()
    }

    /// How many inputs and requests there were, and how often each number was met.
    pub fn text(&self) -> String {
        let numbers: String = (1..=19)
            .map(|number| format!(" {number}:{}", self.number(number)))
            .collect();
        format!(
            "{} scripts, {} requests; numbers met{numbers}\n{}",
            self.inputs,
            self.requests,
            self.seen.text()
        )
    }
}

/// Operands that are odd or wrong in some place.
const OPERANDS: [&str; 32] = [
    "-0",
    "+1",
    "+",
    "00",
    "01",
    "-01",
    "007",
    "9223372036854775807",
    "9223372036854775808",
    "-9223372036854775808",
    "-9223372036854775809",
    "18446744073709551615",
    "18446744073709551616",
    "18446744073709551617",
    "-18446744073709551616",
    "99999999999999999999999999999999999999999",
    "-",
    "--",
    "--1",
    "1-",
    "",
    " 1",
    "1 ",
    "1  1",
    "1\t",
    "1\r",
    "0x1",
    "1.0",
    "a",
    "1\n",
    "\u{0661}",
    "2147483648",
];

/// Lines that are right somewhere, or nearly right.
const LINES: [&str; 33] = [
    "do=new 0 0 0\n",
    "do=new 0 0\n",
    "do=new 0 0 0 0\n",
    "do=new 0 0 -\n",
    "do=new  0 0 0\n",
    "do=new 0 0 0 \n",
    "do=new\n",
    "do=new \n",
    "do=newt 0 0 0\n",
    "do=New 0 0 0\n",
    " do=new 0 0 0\n",
    "do=new 0 0 0\r\n",
    "do=mov 0 0 0 0\n",
    "do=move 0 0 0\n",
    "do=move 0 0 0 0 0\n",
    "do=call 0 0\n",
    "do=call 0 0 0 1 2 3\n",
    "do=call 0 0 0 1 2 3 4\n",
    "do=call 0 0 0 1 2 3 4 5\n",
    "do=call 0 0 0 -\n",
    "do=answer 0 0\n",
    "do=answer 0 0 -\n",
    "do=answer 0 0 --\n",
    "do=answer 0 0 - -\n",
    "do=drop 0 0\n",
    "do=\n",
    "do\n",
    "\n",
    "# new\n",
    "guide=1\n",
    "when=1\n",
    "end=sheet\n",
    "got=0 0\n",
];

/// A generated script with one to three damages.
pub fn damaged(seed: u64) -> Vec<u8> {
    let mut random = Random::new(seed ^ 0x05c2_1b70_0000_0000);
    let profiles = [
        Profile::Small,
        Profile::Small,
        Profile::Medium,
        Profile::Long,
    ];
    let profile = *random.pick(&profiles);
    let mut text = generate(seed, profile);
    for _ in 0..random.within((1, 3)) {
        damage(&mut random, &mut text);
    }
    text
}

/// One damage, mostly behind the sheet.
fn damage(random: &mut Random, text: &mut Vec<u8>) {
    let (sheet, rest) = script::split(text);
    let (mut sheet, mut rest) = (sheet.to_vec(), rest.to_vec());
    match random.weighted(&[10, 25, 35, 15, 15]) {
        0 => damage::damage(random, &mut sheet),
        1 => damage::damage(random, &mut rest),
        2 => other_operand(random, &mut rest),
        3 => other_line(random, &mut rest),
        _ => other_end(random, &mut sheet),
    }
    *text = [sheet, rest].concat();
}

/// Puts an odd operand in place of one.
fn other_operand(random: &mut Random, rest: &mut Vec<u8>) {
    let spaces: Vec<usize> = (0..rest.len()).filter(|at| rest[*at] == b' ').collect();
    if spaces.is_empty() {
        return;
    }
    let start = *random.pick(&spaces) + 1;
    let length = rest[start..]
        .iter()
        .take_while(|byte| !b" \n".contains(byte))
        .count();
    rest.splice(start..start + length, random.pick(&OPERANDS).bytes());
}

/// Puts an odd line before one, or at the end.
fn other_line(random: &mut Random, rest: &mut Vec<u8>) {
    let starts = line_starts(rest);
    let at = *random.pick(&starts);
    rest.splice(at..at, random.pick(&LINES).bytes());
}

/// The last line of a sheet missing, early, twice, or not quite it.
fn other_end(random: &mut Random, sheet: &mut Vec<u8>) {
    const END: &[u8] = b"end=sheet\n";
    let whole = sheet.len();
    match random.below(5) {
        0 => sheet.truncate(whole.saturating_sub(END.len())),
        1 => sheet.extend_from_slice(END),
        2 => {
            let at = *random.pick(&line_starts(sheet));
            sheet.splice(at..at, END.iter().copied());
        }
        3 => sheet.truncate(whole.saturating_sub(1)),
        _ => {
            let byte = *random.pick(b" \r\0s");
            sheet.insert(whole.saturating_sub(1), byte);
        }
    }
}

/// Where lines begin, and the end.
fn line_starts(text: &[u8]) -> Vec<usize> {
    let ends = (0..text.len()).filter(|at| text[*at] == b'\n');
    std::iter::once(0).chain(ends.map(|at| at + 1)).collect()
}

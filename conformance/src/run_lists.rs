//! Lists of words for runs: requests with words between them that are none, and answer lists of every length. What runs them is
//! held against runs.rs.

use crate::requests::{counted, loaded};
use crate::runs::{coded, decoded, words, ANSWER};
use crate::served::counts;
use crate::tiny_first::Input;
use reference::hostile::Hostile;
use reference::random::Random;
use reference::raw::RawState;
use reference::refusal::Refusal;
use reference::requests::Request;

/// What runs words on a state in bytes: the proved core through its C function, or a stand-in. How many were served, or 2.
pub type Run = fn(&mut RawState, &[i64], &mut [i64]) -> Result<usize, Refusal>;

/// A state, words and the answer list that is lent, with what stands in it before.
#[derive(Clone)]
pub struct List {
    pub state: RawState,
    pub words: Vec<i64>,
    pub answers: Vec<i64>,
}

/// On a state handed in.
pub fn on_handed_in(hostile: Input<Hostile>) -> List {
    list(hostile.seed, hostile.of)
}

/// On the state of a script's sheet, with its requests.
pub fn on_loaded(script: Input<Vec<u8>>) -> Option<List> {
    Some(list(script.seed, loaded(&script)?.1))
}

fn list(seed: u64, of: Hostile) -> List {
    let mut random = Random::new(seed ^ 0x0000_2042_0000_0000);
    let mut words = mixed(&mut random, &of.requests);
    if random.chance(40) {
        words.extend(ending(&mut random));
    }
    if random.chance(15) {
        spoil(&mut random, &mut words);
    }
    let answers = room(&mut random, decoded(&words).len());
    List {
        state: of.state,
        words,
        answers,
    }
}

/// The words of requests, some with words before them that are passed over (U6).
fn mixed(random: &mut Random, requests: &[Request]) -> Vec<i64> {
    let mut all = Vec::new();
    for request in requests {
        if random.chance(10) {
            all.extend(none(random, request));
        }
        all.extend(words(request));
    }
    all
}

const FAR: [i64; 6] = [i64::MIN, -1, 4, 1 << 32, (1 << 32) + 3, i64::MAX];

/// Words with all their operands that are no request: another code, or a number of operands that the code does not allow.
fn none(random: &mut Random, request: &Request) -> Vec<i64> {
    let right = words(request);
    let (code, operands) = (right[0], &right[2..]);
    let allowed_not: &[usize] = match code {
        0 => &[0, 2, 4],
        1 => &[0, 3, 5, 12],
        2 => &[0, 1, 2],
        _ => &[0, 1, 4, 9],
    };
    if random.chance(50) {
        return coded(*random.pick(&FAR), operands);
    }
    let behind = std::iter::repeat(&code);
    let operands = operands.iter().chain(behind).copied();
    let operands: Vec<i64> = operands.take(*random.pick(allowed_not)).collect();
    coded(code, &operands)
}

/// Puts another number for a word: all behind it may come to mean something else.
fn spoil(random: &mut Random, words: &mut [i64]) {
    if !words.is_empty() {
        let at = random.below(words.len());
        words[at] = match random.chance(70) {
            true => random.below(8) as i64,
            false => *random.pick(&FAR),
        };
    }
}

/// Words that take the rest of the list with them (U7): operands missing, more than there are, negative, or a code alone.
fn ending(random: &mut Random) -> Vec<i64> {
    let code = random.below(5) as i64;
    let number = *random.pick(&[i64::MIN, -1, -3, 1 << 32, i64::MAX]);
    match random.below(4) {
        0 => vec![code],
        1 => vec![code, number, 0, 0, 0],
        2 => vec![code, 5, 0, 0, 0, 0],
        _ => vec![code, 1 + random.below(4) as i64],
    }
}

/// Room for too few answers, for exactly all, or for more; the last may lack some words.
fn room(random: &mut Random, requests: usize) -> Vec<i64> {
    let all = requests * ANSWER;
    let length = match random.below(6) {
        0 => random.below(all + 1),
        1 => all.saturating_sub(1 + random.below(ANSWER)),
        2 | 3 => all,
        _ => all + 1 + random.below(3 * ANSWER),
    };
    let filled = (0..length).map(|_| random.number() as i64);
    filled.collect()
}

/// What was met of the words and answers of runs.
#[derive(Default, Debug)]
pub struct Met {
    /// Answers by their refusal, 0 for accepted.
    pub numbers: [u64; 20],
    /// Runs: refused, with too little room, with exactly enough, with more.
    pub rooms: [u64; 4],
}

impl Met {
    fn add(&mut self, list: &List, answers: &[i64], wanted: Result<usize, Refusal>) {
        let Ok(served) = wanted else {
            self.numbers[2] += 1;
            self.rooms[0] += 1;
            return;
        };
        for answer in answers.chunks_exact(ANSWER).take(served) {
            self.numbers[answer[0] as usize] += 1;
        }
        let due = decoded(&list.words).len() * ANSWER;
        let kind = 1 + usize::from(answers.len() >= due) + usize::from(answers.len() > due);
        self.rooms[kind] += 1;
    }
}

/// Where two runs of a list differ: refusal or how many were served, a word of the answers, and of the state counts and counted
/// bytes, or any byte where it is refused.
pub fn difference(theirs: Run, ours: Run, list: &List, met: &mut Met) -> Option<String> {
    let (mut their, mut our) = (list.clone(), list.clone());
    let got = theirs(&mut their.state, &list.words, &mut their.answers);
    let wanted = ours(&mut our.state, &list.words, &mut our.answers);
    met.add(list, &our.answers, wanted);
    let fault = if got != wanted {
        format!("gives {got:?} for {wanted:?}")
    } else if their.answers != our.answers {
        format!("answers {:?} for {:?}", their.answers, our.answers)
    } else if wanted.is_err() && their.state != list.state {
        "changes the state and refuses".to_string()
    } else if wanted.is_ok() && !same(&their.state, &our.state) {
        format!("leaves\n{:?}for\n{:?}", their.state, our.state)
    } else {
        return None;
    };
    Some(format!("{:?} {fault}\non\n{:?}", list.words, list.state))
}

fn same(theirs: &RawState, ours: &RawState) -> bool {
    counts(theirs) == counts(ours) && counted(theirs) == counted(ours)
}

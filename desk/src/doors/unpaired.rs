//! Which entries stay unpaired, by the core's counts alone.

use pilgonca::{Doors, Refusal};

/// An entry of a list that stays unpaired.
#[derive(Clone, PartialEq, Eq, Debug)]
pub struct Unpaired {
    /// Its number in the list, from 0 on.
    pub number: usize,
    /// Whether an entry of the other list is near it (V4), so that another pairing of as many pairs has it; else none has it.
    pub near: bool,
}

/// The entries of one list that stay unpaired, where `pairs` is how many pairs the core counts for a part of that list and the whole of the other.
///
/// An entry is paired where the entries up to it have one pair more than those before it. That is right by V6 alone, whatever way the core counts: sets of
/// marks that a pairing can have are the independent sets of a matroid, and taking each entry that adds to the rank of those before it gives a basis, as many
/// entries as there are pairs. The same of the arrivals; and where some pairing has all of these marks, and some all of these arrivals, one has both
/// (Mendelsohn and Dulmage). So both lists together are what one pairing of the most pairs leaves. By V8 it is the core's own: its pass over a part of a list
/// makes the same steps as over the whole, up to the end of that part.
///
/// In a matroid every entry that is independent alone is in some basis: an entry with another near it is paired in some pairing of the most pairs.
pub fn unpaired(
    times: &[u64],
    pairs: impl Fn(&[u64]) -> Result<usize, Refusal>,
) -> Result<Vec<Unpaired>, Refusal> {
    let mut found = Vec::new();
    let mut before = pairs(&[])?;
    for number in 0..times.len() {
        let with = pairs(&times[..=number])?;
        if with != before + 1 {
            let near = pairs(&times[number..=number])? > 0;
            found.push(Unpaired { number, near });
        }
        before = with;
    }
    Ok(found)
}

/// Whether what was found is as many as the core counts for the whole lists. Where it is not, nothing of it is an answer.
pub fn agreed(counts: &Doors, marks: usize, arrivals: usize) -> Result<(), String> {
    let Doors {
        unpaired_marks,
        unpaired_arrivals,
        ..
    } = *counts;
    if (unpaired_marks, unpaired_arrivals) == (marks, arrivals) {
        return Ok(());
    }
    Err(format!(
        "NO ANSWER: the core counts {unpaired_marks} unpaired marks and {unpaired_arrivals} unpaired arrivals in the lists, \
         but {marks} and {arrivals} by their parts. One of these is wrong: believe neither, and report it with both files"
    ))
}

#[cfg(test)]
mod tests {
    use super::*;

    #[test]
    fn an_entry_is_paired_where_it_adds_a_pair() {
        // by hand: of 0, 1 and 9 against one arrival at 1, within 1
        let pairs = |part: &[u64]| Ok(usize::from(part.iter().any(|time| *time < 3)));
        let found = unpaired(&[0, 1, 9], pairs).expect("counts");
        let [one, two] = [(1, true), (2, false)].map(|(number, near)| Unpaired { number, near });
        assert_eq!(found, [one, two]);
    }

    #[test]
    fn counts_that_do_not_agree_are_no_answer() {
        let counts = Doors {
            pairs: 1,
            unpaired_marks: 2,
            unpaired_arrivals: 0,
        };
        assert_eq!(agreed(&counts, 2, 0), Ok(()));
        for (marks, arrivals) in [(1, 0), (2, 1), (0, 2)] {
            let why = agreed(&counts, marks, arrivals).expect_err("they differ");
            assert!(why.starts_with("NO ANSWER: "), "{why}");
        }
    }

    #[test]
    fn a_refusal_stays_one() {
        let refused = unpaired(&[1], |_| Err(Refusal::UnfitTimes));
        assert_eq!(refused, Err(Refusal::UnfitTimes));
    }
}

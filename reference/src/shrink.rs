//! Smaller failing inputs. Given an input for which a predicate holds (two
//! programs differ, say), finds a smaller one for which it still holds.

mod chunks;
mod handed_in;
mod numbers;
mod parts;
mod tables;

pub use handed_in::shrink_hostile;

use chunks::drop_chunks;
use numbers::{cut, renumbered};
use parts::Parts;
use tables::{categories_dropped, fewer_subjects, methods_dropped, states_simpler, types_dropped};

/// A smaller input for which `fails` still holds; the input itself if there
/// is none to be found. `fails(input)` must hold.
pub fn shrink(input: &[u8], fails: &mut dyn FnMut(&[u8]) -> bool) -> Vec<u8> {
    let mut best = input.to_vec();
    loop {
        let before = best.len();
        if let Some(parts) = Parts::of(&best) {
            best = shrink_parts(parts, fails).text();
        }
        best = shrink_text(best, fails);
        if best.len() >= before {
            return best;
        }
    }
}

/// Tries one change after the other as long as any of them keeps the failure.
fn shrink_parts(parts: Parts, fails: &mut dyn FnMut(&[u8]) -> bool) -> Parts {
    let mut best = parts;
    loop {
        let before = best.text().len();
        best = drop_requests(best, fails);
        best = first_of(best, fails, types_dropped);
        best = first_of(best, fails, methods_dropped);
        best = first_of(best, fails, categories_dropped);
        best = first_of(best, fails, states_simpler);
        best = first_of(best, fails, fewer_subjects);
        if best.text().len() >= before {
            return best;
        }
    }
}

/// Takes the first of the offered changes that is smaller and still fails, and
/// starts anew, until none is left.
fn first_of(
    parts: Parts,
    fails: &mut dyn FnMut(&[u8]) -> bool,
    offers: fn(&Parts) -> Vec<Parts>,
) -> Parts {
    let mut best = parts;
    'again: loop {
        let length = best.text().len();
        for offer in offers(&best) {
            let text = offer.text();
            if text.len() < length && fails(&text) {
                best = offer;
                continue 'again;
            }
        }
        return best;
    }
}

/// Drops runs of requests, long ones first, with and without renumbering.
fn drop_requests(parts: Parts, fails: &mut dyn FnMut(&[u8]) -> bool) -> Parts {
    let mut best = parts;
    let mut length = best.requests.len();
    while length > 0 {
        let mut at = best.requests.len().saturating_sub(length);
        loop {
            for offer in [renumbered(&best, at, length), cut(&best, at, length)] {
                if fails(&offer.text()) {
                    best = offer;
                    break;
                }
            }
            if at == 0 {
                break;
            }
            at = at.saturating_sub(length);
        }
        length = (length / 2).min(best.requests.len());
    }
    best
}

/// For inputs that are no sheets: drops lines, then words, then single bytes.
fn shrink_text(text: Vec<u8>, fails: &mut dyn FnMut(&[u8]) -> bool) -> Vec<u8> {
    let text = drop_pieces(&text, b"\n", fails);
    if Parts::of(&text).is_some() {
        return text;
    }
    let text = drop_pieces(&text, b" \n", fails);
    if text.len() > 4000 {
        return text;
    }
    drop_chunks(text, &mut |text| fails(text))
}

/// Drops pieces of a text, each ended by one of these bytes.
fn drop_pieces(text: &[u8], ends: &[u8], fails: &mut dyn FnMut(&[u8]) -> bool) -> Vec<u8> {
    let pieces = text.split_inclusive(|byte| ends.contains(byte));
    let pieces: Vec<Vec<u8>> = pieces.map(<[u8]>::to_vec).collect();
    drop_chunks(pieces, &mut |pieces| fails(&pieces.concat())).concat()
}

#[cfg(test)]
mod tests {
    use super::*;
    use crate::entry;
    use crate::hostile::Hostile;
    use crate::refusal::LATER_LAYER;

    #[test]
    fn shrinks_what_is_not_a_sheet() {
        let mut fails = |input: &[u8]| input.windows(3).any(|three| three == b"99=");
        let small = shrink(b"guide=1\nsub99=5\nx\n", &mut fails);
        assert_eq!(small, b"99=");
    }

    #[test]
    fn an_input_that_cannot_shrink_stays() {
        let mut fails = |input: &[u8]| input == b"abc\n";
        assert_eq!(shrink(b"abc\n", &mut fails), b"abc\n");
    }

    #[test]
    fn shrinks_a_handed_in_state() {
        let mut fails = |hostile: &Hostile| {
            let mut state = hostile.state.clone();
            hostile
                .requests
                .iter()
                .any(|request| entry::request(&mut state, request) == Err(LATER_LAYER))
        };
        let hostile = (0..)
            .map(crate::hostile::generate)
            .find(|hostile| fails(hostile))
            .unwrap();
        let small = shrink_hostile(&hostile, &mut fails);
        assert!(fails(&small));
        assert!(small.requests.len() <= 2);
        assert!(small.state.calls <= hostile.state.calls);
    }
}

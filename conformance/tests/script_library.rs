//! What `script` prints, by its C function: the reference's outputs and the program's, in buffers of every length that matters.

use conformance::scripts::{damaged, deepest, proved, Met, LONGER};
use conformance::tiny_first;
use conformance::worst_scripts::layered;
use pilgonca::raw::script;
use pilgonca::script as printed;
use reference::generators::{Profile, PROFILES};
use reference::refusal::Refusal;
use reference::script::{self as ours, MAX_INPUT};

/// Scripts of tiny sheets, those of the profiles and damaged ones, from seed 0 on, and the numbers that none of them meets.
fn compare(profiles: &[(Profile, u64)], damages: u64, unmet: &[Refusal]) -> Met {
    let mut met = Met::default();
    for script in tiny_first::scripts(profiles) {
        met.same(&printed, &script.of, &script.from);
    }
    for seed in 0..damages {
        met.same(&printed, &damaged(seed), &format!("damaged here {seed}"));
    }
    println!("{}", met.text());
    assert_eq!(met.missing(), unmet);
    met
}

#[test]
fn the_reference_prints_the_same() {
    let profiles = [
        (Profile::Small, 1500),
        (Profile::Medium, 500),
        (Profile::Big, 100),
        (Profile::Full, 80),
        (Profile::Long, 80),
    ];
    compare(&profiles, 0, &[1, 2, 3, 4, 19]);
}

#[test]
fn the_reference_prints_the_same_for_damaged_scripts() {
    let met = compare(&[(Profile::Damaged, 1500)], 2000, &[4, 19]);
    assert!(met.malformed > 500 && met.too_long > 5);
}

#[test]
#[ignore = "long"]
fn the_reference_prints_the_same_for_millions_of_requests() {
    let profiles = [
        (Profile::Small, 200_000),
        (Profile::Medium, 60_000),
        (Profile::Big, 3000),
        (Profile::Full, 6000),
        (Profile::Long, 6000),
        (Profile::Damaged, 200_000),
    ];
    let met = compare(&profiles, 300_000, &[4, 19]);
    assert!(met.requests > 5_000_000);
}

/// Some scripts of every profile behind those of tiny sheets, the worst ones, and ones that are too long.
fn some() -> Vec<Vec<u8>> {
    let profiles = PROFILES.map(|profile| match profile {
        Profile::Full => (profile, 5),
        _ => (profile, 40),
    });
    let generated = tiny_first::scripts(&profiles).map(|script| script.of);
    let worst = deepest().map(|(_, input)| input);
    let long = [MAX_INPUT, MAX_INPUT + 1, 2 * MAX_INPUT].map(|length| {
        let mut input = layered(20);
        input.resize(length, b'\n');
        input
    });
    let all = generated.chain((0..100).map(damaged)).chain(worst);
    all.chain(long).chain([Vec::new()]).collect()
}

#[test]
fn the_program_prints_the_same() {
    for input in some() {
        let text = String::from_utf8_lossy(&input).to_string();
        assert!(printed(&input) == proved(&input), "{text}");
    }
}

const MARK: u8 = 0xa7;
const UNSET: usize = 0x5a5a;

/// The answer and the length, and the buffer that is left.
fn in_buffer(input: &[u8], size: usize) -> (usize, usize, Vec<u8>) {
    let (mut out, mut length) = (vec![MARK; size], UNSET);
    let code = script(input, &mut out, &mut length);
    (code, length, out)
}

/// A buffer that is exact does; bytes behind the text stay; where a byte is missing nothing is stored.
#[test]
fn buffers_of_every_length() {
    for input in some() {
        let output = ours::run(&input);
        let (whole, bound) = (output.len(), input.len() + LONGER);
        assert!(whole <= bound);
        for size in [whole, whole + 1, bound, 2 * MAX_INPUT] {
            if size >= whole {
                let (code, length, out) = in_buffer(&input, size);
                assert_eq!((code, length), (0, whole), "{size}");
                assert!(out[..whole] == output && out[whole..].iter().all(|one| *one == MARK));
            }
        }
        for size in [0, 1, whole / 2, whole.saturating_sub(1)] {
            if size < whole {
                let (code, length, out) = in_buffer(&input, size);
                assert_eq!((code, length), (4, UNSET), "{size} of {whole}");
                assert!(out.iter().all(|one| *one == MARK));
            }
        }
    }
}

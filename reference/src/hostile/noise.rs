//! Noise in the bytes that mean nothing (H15, Q16).

use crate::random::Random;
use crate::raw::{RawState, RawTable, METHODS_AT, METHOD_BYTES, TYPE_BYTES};

/// Fills what may hold anything: bytes past the counts, spare bytes, keys of
/// sheet types, own and states of number types, signatures of methods that are
/// not permitted, slots past the argument count, methods past the count, the
/// second link where there is one.
pub fn noise(random: &mut Random, raw: &mut RawState) {
    let (cells, places, calls) = (raw.cells, raw.places, raw.calls);
    noise_from(random, &mut raw.cell_bytes, cells as usize * 3);
    noise_from(random, &mut raw.place_bytes, places as usize * 3);
    noise_from(random, &mut raw.call_bytes, calls as usize * 4);
    noise_table(random, &mut raw.table);
}

fn noise_from(random: &mut Random, bytes: &mut [u8], start: usize) {
    let start = start.min(bytes.len());
    for byte in &mut bytes[start..] {
        *byte = any_byte(random);
    }
}

fn any_byte(random: &mut Random) -> u8 {
    random.below(256) as u8
}

fn noise_table(random: &mut Random, raw: &mut RawTable) {
    let (methods, types) = (raw.methods as usize, raw.types as usize);
    let sheet_types = raw.sheet_types as usize;
    let categories = raw.categories as usize;
    noise_from(random, &mut raw.type_bytes, types * TYPE_BYTES);
    noise_from(random, &mut raw.broader, (categories + 1) * 3);
    noise_from(random, &mut raw.broader[..3], 0);
    for category in 1..=categories {
        if raw.broader[category * 3] == 1 {
            raw.broader[category * 3 + 2] = any_byte(random);
        }
    }
    for number in 0..types {
        let entry = raw.entry_mut(number);
        noise_from(random, &mut entry[6..METHODS_AT], 0);
        if number < sheet_types {
            noise_from(random, &mut entry[3..6], 0);
        }
        noise_from(random, entry, METHODS_AT + methods * METHOD_BYTES);
        if entry[0] != 0 {
            entry[2] = any_byte(random);
            noise_from(random, entry, METHODS_AT);
            continue;
        }
        for method in 0..methods {
            let bytes = raw.method_mut(number, method);
            match bytes[0] {
                1 | 2 => {
                    let used = 2 + usize::from(bytes[1]);
                    noise_from(random, &mut bytes[used..6], 0);
                }
                _ => noise_from(random, bytes, 1),
            }
        }
    }
}

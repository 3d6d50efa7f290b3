//! The four requests measured, each on the state that it meets.

use crate::measure::{head, ratio};
use crate::scenes::{calling, populated, scenes, Scene};
use crate::{heavy, requests};
use conformance::inputs::table;
use conformance::requests::Core;
use conformance::served::{counts, set_counts, Proved};
use conformance::states::{of_table, worst_state};
use reference::generators::BIG;
use reference::raw::{RawState, RawTable};
use reference::requests::Request;
use reference::sheet;
use reference::table::MAX_ARGUMENTS;
use std::hint::black_box;

/// A state that requests are put to again and again: what is past the counts may hold anything, so that counts and an answered
/// flag are all that has to be put back.
struct Again {
    state: RawState,
    counts: [usize; 8],
    answered: Option<usize>,
}

impl Again {
    fn of(scene: &Scene) -> Again {
        let answered = match scene.request {
            Request::Answer { call, .. } => Some(call as usize),
            _ => None,
        };
        Again {
            state: scene.state.clone(),
            counts: counts(&scene.state),
            answered,
        }
    }

    fn put_back(&mut self) {
        set_counts(&mut self.state, self.counts);
        if let Some(call) = self.answered {
            self.state.call_mut(call)[3] = 0;
        }
    }
}

/// Measures a scene, both sides of which have to do the same.
pub fn measure(scene: &Scene) {
    let (mut theirs, mut ours) = (Again::of(scene), Again::of(scene));
    let request = &scene.request;
    let answer = Proved.request(&mut theirs.state, request);
    assert_eq!(answer, requests::request(&mut ours.state, request));
    assert!(
        theirs.state == ours.state,
        "{}: the states differ",
        scene.name
    );
    ratio(
        &format!("{}, {answer:?}", scene.name),
        || {
            theirs.put_back();
            let _ = black_box(Proved.request(&mut theirs.state, black_box(request)));
        },
        || {
            ours.put_back();
            let _ = black_box(requests::request(&mut ours.state, black_box(request)));
        },
    );
}

/// Offers of chains of one method again and again: the same as safe Rust's, and the ratio.
pub fn offers(name: &str, state: &RawState) {
    for length in [1, 8] {
        let methods = 0..i64::from(state.table.methods);
        let chains = methods.map(|method| vec![method; length]);
        let asked = chains
            .flat_map(|chain| (0..i64::from(state.cells)).map(move |cell| (cell, chain.clone())));
        let asked: Vec<(i64, Vec<i64>)> = asked.collect();
        for (cell, chain) in &asked {
            assert_eq!(
                Proved.offers(state, *cell, chain),
                requests::offers(state, *cell, chain)
            );
        }
        let offered =
            |(cell, chain): &&(i64, Vec<i64>)| requests::offers(state, *cell, chain) == Ok(true);
        let (cell, chain) = asked.iter().find(offered).unwrap_or(&asked[0]);
        ratio(
            &format!("offers, a chain of {length}, {name}"),
            || {
                let _ = black_box(Proved.offers(black_box(state), *cell, chain));
            },
            || {
                let _ = black_box(requests::offers(black_box(state), *cell, chain));
            },
        );
    }
}

/// The first generated sheet of 48 types on which a call with four references is accepted, with objects.
fn generated() -> RawState {
    let sheets = (0..).map(|seed| table(&BIG, seed));
    let states = sheets
        .filter(|table| table.sheet_types == 48)
        .map(|table| populated(of_table(RawTable::of(&table)), 40));
    let mut fit = states.filter(|state| calling(state, MAX_ARGUMENTS).is_some());
    fit.next().expect("one seed of a few")
}

/// All scenes. (No adapters like those of the 48 types are made on a loaded sheet: there all are passed as they are. Through 40 such,
/// a call is dearer than any known on a loaded one. Without adapters the 48 types are those of a loaded sheet: tests of heavy.rs.)
pub fn all() {
    head("requests");
    let example = sheet::read(include_bytes!("../../examples/case-p.sheet")).expect("a sheet");
    let case = populated(of_table(RawTable::of(&example)), 8);
    let generated = generated();
    let of_class = |class: usize, _: usize| class;
    let ordinary = [
        scenes("Case P", &case, 1, of_class),
        scenes("48 generated types", &generated, MAX_ARGUMENTS, of_class),
    ];
    ordinary.iter().flatten().for_each(measure);
    offers("Case P", &case);
    offers("48 generated types", &generated);
    let (of_sheets, full) = heavy::scenes();
    let worst = scenes(
        "48 types, every pair reached",
        &worst_state(48, 0),
        MAX_ARGUMENTS,
        |_, one| 47 - one,
    );
    let handed_in = scenes(
        "128 types handed in",
        &worst_state(128, 0),
        MAX_ARGUMENTS,
        |_, one| 127 - one,
    );
    let heavy = of_sheets.iter().chain(&worst).chain(&handed_in);
    heavy.chain([&full]).for_each(measure);
}

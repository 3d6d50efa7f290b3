//! The program `dump`: the script's output, then what the model holds.

use crate::chains::{offered, All};
use crate::script::run_whole;
use crate::sheet::type_lines;
use crate::state::{Place, State};
use crate::table::{Kind, Table, TypeNo};

/// The script's output, then every derived type, place, cell and call.
pub fn run(input: &[u8]) -> Vec<u8> {
    let run = run_whole(input);
    let mut output = run.output;
    if let Some(model) = run.model {
        output.extend_from_slice(state(&model.state).as_bytes());
    }
    output
}

pub fn state(state: &State) -> String {
    let mut text = format!("types {}\n", state.table.types.len());
    for number in state.table.sheet_types..state.table.types.len() {
        text.push_str(&derived(&state.table, number));
    }
    text.push_str(&format!("places {}\n", state.places.len()));
    for (number, place) in state.places.iter().enumerate() {
        text.push_str(&match place {
            Place::Object { class, owner } => {
                format!("place {number} object class={class} owner={owner}\n")
            }
            Place::Adapter { behind, closed } => {
                format!("place {number} adapter behind={behind} closed={closed}\n")
            }
        });
    }
    text.push_str(&format!("cells {}\n", state.cells.len()));
    for (number, cell) in state.cells.iter().enumerate() {
        text.push_str(&format!(
            "cell {number} holder={} type={} place={}\n",
            cell.holder, cell.type_, cell.place
        ));
    }
    text.push_str(&format!("calls {}\n", state.calls.len()));
    for (number, call) in state.calls.iter().enumerate() {
        text.push_str(&format!(
            "call {number} caller={} cell={} method={} answered={}\n",
            call.caller,
            call.cell,
            call.method,
            if call.answered { "yes" } else { "no" }
        ));
    }
    text
}

/// One derived type on one line: number, key, category, states.
pub fn derived(table: &Table, number: TypeNo) -> String {
    let key = table.keys[number - table.sheet_types];
    let kind = match key.kind {
        Kind::Sub => "Sub",
        Kind::Sup => "Sup",
        Kind::Closed => "Closed",
    };
    format!(
        "type {number} {kind}({},{}) {}\n",
        key.left,
        key.right,
        type_lines(&table.types[number]).join(" ")
    )
}

/// A readable account of one list of requests: the input, what is printed,
/// the count of types, derived types, places, cells and calls, and short
/// chains with whether the last cells offer them.
pub fn account(input: &[u8]) -> String {
    let run = run_whole(input);
    let mut text = String::from("--- input\n");
    text.push_str(&String::from_utf8_lossy(input));
    text.push_str("--- printed\n");
    text.push_str(&String::from_utf8_lossy(&run.output));
    if let Some(model) = run.model {
        text.push_str("--- state\n");
        text.push_str(&self::state(&model.state));
        text.push_str("--- chains\n");
        let cells = model.state.cells.len();
        for cell in cells.saturating_sub(3)..cells {
            text.push_str(&chains(&model.state, cell));
        }
    }
    text
}

/// The chains of at most two methods, and some of three, that a cell offers
/// or does not.
fn chains(state: &State, cell: usize) -> String {
    let types = offered(state, cell);
    let all = All {
        table: &state.table,
        types: &types,
    };
    let methods = state.table.methods.min(3);
    let mut list: Vec<Vec<usize>> = vec![Vec::new()];
    for first in 0..methods {
        list.push(vec![first]);
        for second in 0..methods {
            list.push(vec![first, second]);
            list.push(vec![first, second, first]);
        }
    }
    let (yes, no): (Vec<_>, Vec<_>) = list.into_iter().partition(|chain| all.permit(chain));
    format!("cell {cell} offered yes: {yes:?} no: {no:?}\n")
}

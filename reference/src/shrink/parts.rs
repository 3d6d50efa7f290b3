//! A sheet and requests, as they are made smaller.

use crate::requests::Request;
use crate::script;
use crate::sheet;
use crate::table::Table;

/// A sheet and requests that are right in form.
#[derive(Clone, Debug)]
pub struct Parts {
    pub table: Table,
    pub requests: Vec<Request>,
}

impl Parts {
    pub fn of(input: &[u8]) -> Option<Parts> {
        let script = script::read(input).ok()?;
        (!script.malformed).then_some(Parts {
            table: script.table,
            requests: script.requests,
        })
    }

    pub fn text(&self) -> Vec<u8> {
        let mut text = sheet::text(&self.table);
        for request in &self.requests {
            text.extend_from_slice(script::line(request).as_bytes());
        }
        text
    }
}

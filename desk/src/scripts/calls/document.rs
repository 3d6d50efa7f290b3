//! The calls of a run as JSON.

use super::{made, Calls};
use crate::json::Json;
use crate::names::Kind;
use crate::scripts::requests::Request;
use pilgonca::CallInfo;

impl Calls<'_> {
    pub fn document(&self) -> Json {
        Json::list(self.asked().map(|call| self.one(&call)))
    }

    /// As the words have them, but whatever method is asked about.
    pub fn callers_json(&self) -> Json {
        Json::list(self.callers().iter().map(|one| one.document(self.names)))
    }

    fn one(&self, call: &CallInfo) -> Json {
        let visit = &self.run.visit;
        let step = self.run.steps.iter().find(|step| made(step, call));
        let arguments = step.and_then(|step| match &step.request {
            Request::Call { arguments, .. } => Some(Json::list(arguments.iter().copied())),
            _ => None,
        });
        let cell = visit.cell_info(call.cell);
        let object = cell.and_then(|info| visit.base_of(info.place));
        Json::Object(vec![
            ("call", call.number.0.into()),
            (
                "caller",
                Json::named(Kind::Subject, call.caller.0, self.names),
            ),
            (
                "method",
                Json::named(Kind::Method, call.method.0, self.names),
            ),
            ("cell", call.cell.0.into()),
            ("object", object.map(|place| place.0).into()),
            ("line", step.map(|step| step.line_number).into()),
            ("arguments", arguments.into()),
            ("types_behind", self.layers(call).into()),
            ("answered", call.answered.into()),
            ("answer", self.answer(call).into()),
        ])
    }
}

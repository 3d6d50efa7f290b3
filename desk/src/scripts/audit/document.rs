//! An audit as JSON.

use super::{Answer, Auditor, Question};
use crate::documents::{named, visits};
use crate::json::Json;
use crate::names::Kind;
use crate::reach::Power;
use crate::scripts::calls::Calls;
use pilgonca::{CellInfo, PlaceInfo, PlaceKind};

/// The whole; there is no auditor where only calls are asked for.
pub fn document(auditor: Option<&Auditor>, calls: &Calls, answer: Answer) -> Json {
    let (run, question) = (calls.run, calls.question);
    let cut = run.malformed.as_ref().map(|line| line.line_number);
    let asked = question.is_asked().then(|| asked(question, answer));
    Json::Object(vec![
        ("saved_state", run.saved.into()),
        ("cut_short", cut.into()),
        ("question", asked.into()),
        ("objects", auditor.map(Auditor::objects).into()),
        ("calls", calls.document()),
        ("callers", calls.callers_json()),
    ])
}

fn asked(question: Question, answer: Answer) -> Json {
    let answer = match answer {
        Answer::Yes => Json::Bool(true),
        Answer::No => Json::Bool(false),
        Answer::NotUpTo(_) | Answer::Untold | Answer::Unsettled => Json::Null,
    };
    Json::Object(vec![
        ("subject", question.subject.into()),
        ("method", question.method.into()),
        ("calls", question.calls.into()),
        ("answer", answer),
    ])
}

impl Auditor<'_> {
    fn objects(&self) -> Json {
        let places = self.run.visit.places();
        Json::list(places.filter_map(|place| self.object_json(&place)))
    }

    fn object_json(&self, place: &PlaceInfo) -> Option<Json> {
        let PlaceKind::Object { class, owner } = place.kind else {
            return None;
        };
        let methods = (0..self.sheet.methods())
            .filter(|method| self.question.method.is_none_or(|one| one == *method));
        let methods = methods.map(|method| {
            let cells = self.asked(Some(place.number), method);
            let holders = cells
                .iter()
                .map(|(cell, power)| self.holder_json(cell, power));
            Json::Object(vec![
                (
                    "method",
                    Json::named(Kind::Method, method as i64, self.names),
                ),
                ("holders", Json::list(holders)),
            ])
        });
        Some(Json::Object(vec![
            ("place", place.number.0.into()),
            ("class", named(class, self.names)),
            ("owner", Json::named(Kind::Subject, owner.0, self.names)),
            ("methods", Json::list(methods)),
        ]))
    }

    fn holder_json(&self, cell: &CellInfo, power: &Power) -> Json {
        let mut members = vec![
            (
                "subject",
                Json::named(Kind::Subject, cell.holder.0, self.names),
            ),
            ("cell", cell.number.0.into()),
            ("came", self.way(cell).into()),
        ];
        members.extend(visits::power(power, self.names));
        Json::Object(members)
    }
}

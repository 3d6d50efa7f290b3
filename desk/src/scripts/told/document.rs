//! A run as JSON.

use super::Teller;
use crate::described::permitted;
use crate::documents::named;
use crate::json::Json;
use crate::names::Kind;
use crate::scripts::callers::callers;
use crate::scripts::follow::{printed, Step};
use crate::shown::shown;
use pilgonca::{CallInfo, CellInfo, PlaceInfo, PlaceKind};

impl Teller<'_> {
    pub fn document(&self) -> Json {
        let visit = &self.run.visit;
        let cut = self.run.malformed.as_ref().map(|line| line.line_number);
        Json::Object(vec![
            (
                "requests",
                Json::list(self.run.steps.iter().map(|step| self.request_json(step))),
            ),
            ("cut_short", cut.into()),
            (
                "cells",
                Json::list(visit.cells().map(|cell| self.cell(&cell))),
            ),
            (
                "places",
                Json::list(visit.places().map(|place| self.place_json(&place))),
            ),
            (
                "calls",
                Json::list(visit.calls().map(|call| self.call(&call))),
            ),
            (
                "callers",
                Json::list(callers(visit).iter().map(|one| one.document(self.names))),
            ),
        ])
    }

    fn request_json(&self, step: &Step) -> Json {
        let refused = step.outcome.as_ref().err();
        let refused = refused.map(|refusal| refusal.number());
        Json::Object(vec![
            ("line", step.line_number.into()),
            ("request", shown(step.line).into()),
            ("accepted", step.outcome.is_ok().into()),
            ("refused", refused.into()),
            ("printed", printed(&step.outcome).into()),
            ("cells", Json::list(step.cells.clone())),
            ("asks", self.request(&step.request).into()),
            ("came", self.outcome(step).into()),
        ])
    }

    fn cell(&self, cell: &CellInfo) -> Json {
        Json::Object(vec![
            ("cell", cell.number.0.into()),
            (
                "holder",
                Json::named(Kind::Subject, cell.holder.0, self.names),
            ),
            ("type", named(cell.type_, self.names)),
            ("place", cell.place.0.into()),
        ])
    }

    fn place_json(&self, place: &PlaceInfo) -> Json {
        let mut members = vec![("place", place.number.0.into())];
        match place.kind {
            PlaceKind::Object { class, owner } => members.extend([
                ("kind", "object".into()),
                ("class", named(class, self.names)),
                ("owner", Json::named(Kind::Subject, owner.0, self.names)),
            ]),
            PlaceKind::Adapter { behind, closed } => {
                let info = self.run.visit.type_info(closed);
                let through = info.map_or(Vec::new(), |info| permitted(&info));
                let through = through.iter();
                let through = through.map(|one| Json::named(Kind::Method, *one as i64, self.names));
                members.extend([
                    ("kind", "adapter".into()),
                    ("behind", behind.0.into()),
                    ("lets_through", Json::list(through)),
                ]);
            }
        }
        Json::Object(members)
    }

    fn call(&self, call: &CallInfo) -> Json {
        Json::Object(vec![
            ("call", call.number.0.into()),
            (
                "caller",
                Json::named(Kind::Subject, call.caller.0, self.names),
            ),
            ("cell", call.cell.0.into()),
            (
                "method",
                Json::named(Kind::Method, call.method.0, self.names),
            ),
            ("answered", call.answered.into()),
        ])
    }
}

//! A run in words: each request, and what it came to.

mod document;

use crate::described::{methods, permitted};
use crate::explain::refused;
use crate::names::{Kind, Names};
use crate::paint::{Paint, Tone};
use crate::scripts::audit::cut_short;
use crate::scripts::callers::{self, callers};
use crate::scripts::follow::{printed, Got, Run, Step};
use crate::scripts::requests::Request;
use crate::shown::shown;
use crate::words::plural;
use pilgonca::{Answered, Call, Called, CellInfo, Place, PlaceKind};

/// Tells a run, with names.
pub struct Teller<'a> {
    pub run: &'a Run<'a>,
    pub names: &'a Names,
    pub paint: Paint,
}

impl Teller<'_> {
    /// Every request and its answer, and how it ended.
    pub fn told(&self) -> String {
        let steps = self.run.steps.iter().map(|step| self.step(step));
        let cut = cut_short(self.run).unwrap_or_default();
        steps.collect::<String>() + &self.end() + &self.callers() + &cut
    }

    fn step(&self, step: &Step) -> String {
        let place = format!("line {}", step.line_number);
        let margin = " ".repeat(place.len());
        let tone = match step.outcome {
            Ok(_) => Tone::Good,
            Err(_) => Tone::Bad,
        };
        format!(
            "{}  {}  ->  {}\n{margin}  {}\n{margin}  {}\n\n",
            self.paint.of(Tone::Quiet, &place),
            self.paint.of(Tone::Strong, &shown(step.line)),
            self.paint.of(tone, &printed(&step.outcome)),
            self.request(&step.request),
            self.outcome(step),
        )
    }

    fn subject(&self, number: i64) -> String {
        self.names.words(Kind::Subject, number)
    }

    fn type_(&self, number: i64) -> String {
        self.names.words(Kind::Type, number)
    }

    /// What is asked.
    fn request(&self, request: &Request) -> String {
        match request {
            Request::New { subject, class, to } => {
                let [class, to] = [class, to].map(|number| self.type_(*number));
                let subject = self.subject(*subject);
                format!("{subject} makes an object of {class}, to hold it as {to}")
            }
            Request::Move {
                subject,
                cell,
                receiver,
                to,
            } => {
                let [subject, receiver] = [subject, receiver].map(|number| self.subject(*number));
                let to = self.type_(*to);
                format!("{subject} hands cell {cell} on to {receiver} as {to}")
            }
            Request::Call {
                subject,
                cell,
                method,
                arguments,
            } => {
                let (subject, with) = (self.subject(*subject), with(arguments));
                let method = self.names.words(Kind::Method, *method);
                format!("{subject} calls {method} through cell {cell} {with}")
            }
            Request::Answer {
                subject,
                call,
                value,
            } => {
                let subject = self.subject(*subject);
                let given = value.map_or("nothing".to_string(), |value| value.to_string());
                format!("{subject} answers call {call} with {given}")
            }
        }
    }

    /// What came of it.
    fn outcome(&self, step: &Step) -> String {
        match &step.outcome {
            Err(refusal) => match &step.why {
                Some(why) => format!(
                    "refused with {}: {}",
                    refusal.number(),
                    why.words(self.names)
                ),
                None => refused(*refusal),
            },
            Ok(Got::Called(called)) => self.called(called, step),
            Ok(Got::Answered(Answered::Number(number))) => {
                format!("the caller gets the number {number}")
            }
            Ok(Got::Answered(Answered::Nothing)) => "the call is answered".to_string(),
            Ok(Got::Held(_) | Got::Answered(Answered::Reference(_))) => self.made(step),
        }
    }

    fn called(&self, called: &Called, step: &Step) -> String {
        let Called { call, adapters, .. } = called;
        let way = match adapters {
            0 => "with no adapter between".to_string(),
            1 => "through 1 adapter".to_string(),
            _ => format!("through {adapters} adapters"),
        };
        let owner = self
            .owner(*call)
            .map_or(String::new(), |owner| format!(", for {owner} to answer"));
        let made = self.made(step);
        let made = if made.is_empty() {
            made
        } else {
            format!("; {made}")
        };
        format!("call {call} {way}{owner}{made}")
    }

    /// The owner of what was called.
    fn owner(&self, call: Call) -> Option<String> {
        let visit = &self.run.visit;
        let call = visit.calls().find(|info| info.number == call)?;
        let cell = visit.cells().find(|info| info.number == call.cell)?;
        let base = visit.base_of(cell.place)?;
        let base = visit.places().find(|info| info.number == base)?;
        match base.kind {
            PlaceKind::Object { owner, .. } => Some(self.subject(owner.0)),
            PlaceKind::Adapter { .. } => None,
        }
    }

    /// The cells that a request made.
    fn made(&self, step: &Step) -> String {
        let cells = self
            .run
            .visit
            .cells()
            .skip(step.cells.start)
            .take(step.cells.len());
        let cells: Vec<String> = cells.map(|cell| self.held(&cell)).collect();
        cells.join("; ")
    }

    fn held(&self, cell: &CellInfo) -> String {
        let (holder, type_) = (self.subject(cell.holder.0), self.type_(cell.type_.0));
        format!(
            "{holder} holds cell {} as {type_}: {}",
            cell.number,
            self.place(cell.place)
        )
    }

    fn place(&self, place: Place) -> String {
        let info = self.run.visit.place_info(place);
        match info.map(|info| info.kind) {
            Some(PlaceKind::Adapter { behind, closed }) => {
                let info = self.run.visit.type_info(closed);
                let through = info.map_or(Vec::new(), |info| permitted(&info));
                let through = methods(&through, self.names);
                format!("it leads to place {place}, an adapter in front of place {behind} that lets through {through}")
            }
            _ => format!("it leads to place {place}, the object itself"),
        }
    }

    /// How many requests there were, and what there is now.
    fn end(&self) -> String {
        let (steps, visit) = (&self.run.steps, &self.run.visit);
        let refused = steps.iter().filter(|step| step.outcome.is_err()).count();
        let adapters = visit
            .places()
            .filter(|info| matches!(info.kind, PlaceKind::Adapter { .. }))
            .count();
        format!(
            "{}: {} accepted, {refused} refused. At the end: {}, {}, {}, {}.\n",
            plural(steps.len(), "request"),
            steps.len() - refused,
            plural(visit.cells().count(), "cell"),
            plural(visit.places().count() - adapters, "object"),
            plural(adapters, "adapter"),
            plural(visit.calls().count(), "call"),
        )
    }

    /// How many calls each subject has made, if there are any.
    fn callers(&self) -> String {
        let visit = &self.run.visit;
        match visit.calls().next() {
            None => String::new(),
            Some(_) => format!(
                "Calls of each subject:\n{}",
                callers::told(&callers(visit), self.names)
            ),
        }
    }
}

fn with(arguments: &[i64]) -> String {
    match arguments {
        [] => "without arguments".to_string(),
        _ => {
            let words: Vec<String> = arguments.iter().map(i64::to_string).collect();
            format!("with {}", words.join(" and "))
        }
    }
}

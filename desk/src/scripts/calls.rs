//! The calls of a run: who called what through which cell, which types stand behind it, and whether it is answered.

mod document;

use crate::names::{Kind, Names};
use crate::paint::{Paint, Tone};
use crate::scripts::audit::Question;
use crate::scripts::callers::{self, callers, Caller};
use crate::scripts::follow::{Got, Run, Step};
use crate::scripts::requests::Request;
use crate::scripts::trails::layers;
use crate::words::under;
use pilgonca::{CallInfo, Sheet};

pub struct Calls<'a> {
    pub run: &'a Run<'a>,
    pub sheet: &'a Sheet,
    pub question: Question,
    pub names: &'a Names,
    pub paint: Paint,
}

impl Calls<'_> {
    /// Those that are asked about.
    fn asked(&self) -> impl Iterator<Item = CallInfo> + '_ {
        let calls = self.run.visit.calls();
        calls.filter(|call| {
            self.question
                .is_about(call.caller.0, call.method.0 as usize)
        })
    }

    pub fn count(&self) -> usize {
        self.asked().count()
    }

    pub fn told(&self) -> String {
        let calls: String = self.asked().map(|call| self.call(&call)).collect();
        let title = self.title();
        match calls.is_empty() {
            true => format!("{title}: {}\n", self.paint.of(Tone::Quiet, "none")),
            false => format!(
                "{}\n{calls}{}",
                self.paint.of(Tone::Strong, &title),
                self.limits()
            ),
        }
    }

    /// How many each subject has left; nothing where one method is asked about, since calls of every method count.
    fn limits(&self) -> String {
        if self.question.method.is_some() {
            return String::new();
        }
        let [subject, _] = self.question.of(self.names);
        let who = subject.unwrap_or_else(|| "each subject".to_string());
        let title = format!("How many calls {who} made");
        let lines = callers::told(&self.callers(), self.names);
        format!("\n{}\n{lines}", self.paint.of(Tone::Strong, &title))
    }

    /// The subjects that are asked about, with the calls of every method.
    fn callers(&self) -> Vec<Caller> {
        let asked = |caller: &Caller| {
            let number = self.question.subject;
            number.is_none_or(|one| one as i64 == caller.subject.0)
        };
        let mut callers = callers(&self.run.visit);
        callers.retain(asked);
        callers
    }

    /// With what of them is asked about.
    fn title(&self) -> String {
        let [subject, method] = self.question.of(self.names);
        let by = subject.map_or(String::new(), |subject| format!(" by {subject}"));
        let of = method.map_or(String::new(), |method| format!(" of {method}"));
        format!("Calls{by}{of}")
    }

    fn call(&self, call: &CallInfo) -> String {
        let CallInfo {
            number,
            caller,
            cell,
            method,
            ..
        } = call;
        let subject = self.names.words(Kind::Subject, caller.0);
        let method = self.names.words(Kind::Method, method.0);
        let made = self.run.steps.iter().find(|step| made(step, call));
        let (line, with) = made.map_or((String::new(), String::new()), |step| {
            (format!(", line {}", step.line_number), given(&step.request))
        });
        let object = self.run.visit.cell_info(*cell);
        let object = object.and_then(|info| self.run.visit.base_of(info.place));
        let object = object.map_or(String::new(), |base| {
            format!(" of the object at place {base}")
        });
        let head = format!("  call {number:<3}  ");
        let margin = " ".repeat(head.len());
        let first = format!("{subject} called {method}{object} through cell {cell}{with}{line}");
        under(&head, &first)
            + &under(&margin, &format!("types behind it: {}", self.layers(call)))
            + &under(&margin, &self.answer(call))
    }

    fn layers(&self, call: &CallInfo) -> String {
        let visit = &self.run.visit;
        let cell = visit.cell_info(call.cell);
        cell.map_or(String::new(), |cell| {
            layers(visit, self.sheet, &cell, self.names)
        })
    }

    fn answer(&self, call: &CallInfo) -> String {
        if !call.answered {
            return "not answered".to_string();
        }
        let mut steps = self.run.steps.iter();
        let told = steps.find_map(|step| match &step.request {
            Request::Answer {
                subject,
                call: of,
                value,
            } if *of == call.number.0 && step.outcome.is_ok() => {
                let subject = self.names.words(Kind::Subject, *subject);
                let value = value.map_or("nothing".to_string(), |value| value.to_string());
                let cells: Vec<String> = step.cells.clone().map(|cell| cell.to_string()).collect();
                let became = match &cells[..] {
                    [] => String::new(),
                    _ => format!(
                        ", its cell, which became the caller's cell {}",
                        cells.join(" and ")
                    ),
                };
                let line = step.line_number;
                Some(format!(
                    "answered by {subject} with {value}{became}, line {line}"
                ))
            }
            _ => None,
        });
        told.unwrap_or_else(|| "answered".to_string())
    }
}

fn made(step: &Step, call: &CallInfo) -> bool {
    matches!(&step.outcome, Ok(Got::Called(called)) if called.call == call.number)
}

/// The arguments of a call.
fn given(request: &Request) -> String {
    match request {
        Request::Call { arguments, .. } if !arguments.is_empty() => {
            let words: Vec<String> = arguments.iter().map(i64::to_string).collect();
            format!(" with {}", words.join(" and "))
        }
        _ => String::new(),
    }
}

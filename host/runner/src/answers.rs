//! Calls and cases as they are answered and printed.

use library::Library;
use scenario::{
    Case, Desk, Functions, Given, Layer, Served, Session, Step, Submission, explain_no_call, explain_text, left_text,
    no_call_text, submitted, turn_text,
};

const NO_FUNCTIONS: &str = "no answer: this layer has no functions outside a slot\n.\n";

/// Whoever answers, and how it is printed.
pub struct Answers {
    layer: Box<dyn Layer>,
    functions: Option<Box<dyn Functions>>,
    explain: bool,
    /// Whether anything was answered other than 0, or not at all.
    pub refused: bool,
}

impl Answers {
    /// None: there is no such layer.
    pub fn new(layer: &str, explain: bool) -> Option<Answers> {
        let functions = runner::functions(layer);
        Some(Answers { layer: runner::layer(layer)?, functions, explain, refused: false })
    }

    /// What begins a scenario.
    pub fn title(&self, name: &str) -> String {
        if self.explain { format!("scenario {name}\n\n") } else { String::new() }
    }

    /// A new dispatcher, of a layer that has one.
    pub fn desk(&self) -> Option<Desk> {
        self.functions.as_ref().map(|functions| Desk::new(functions.dispatcher()))
    }

    /// Reads a step's raw descriptors, whatever the layer by the proved reader. False: they are refused.
    fn reads(&mut self, step: &mut Step, text: &mut String) -> bool {
        let Err(number) = step.read_raw(&Library) else {
            return true;
        };
        self.refused = true;
        if self.explain {
            explain_no_call(text, step, number);
        } else {
            no_call_text(text, number);
        }
        false
    }

    /// Runs a call of a scenario and adds what it left to the text.
    pub fn call(&mut self, session: &mut Session, mut step: Step, text: &mut String) {
        if self.reads(&mut step, text) {
            self.run(session, &step, text);
        }
    }

    fn run(&mut self, session: &mut Session, step: &Step, text: &mut String) {
        let (call, record, given) = session.prepare(step);
        let mut buffers = given.clone();
        match self.layer.called(&record, &call, &mut buffers) {
            Err(cannot) => {
                self.refused = true;
                text.push_str(&format!("no answer: {cannot:?}\n.\n"));
            }
            Ok(called) => {
                self.refused |= called.answer.number != 0;
                let left = session.settle(&call, called, buffers);
                if self.explain {
                    let given = Given { call: &call, record: &record, buffers: &given };
                    explain_text(text, &mut *self.layer, &given, &left);
                } else {
                    left_text(text, &left);
                }
            }
        }
    }

    fn no_functions(&mut self, text: &mut String) {
        self.refused = true;
        text.push_str(NO_FUNCTIONS);
    }

    /// Submits a call to a dispatcher.
    pub fn submit(&mut self, desk: Option<&mut Desk>, mut submission: Submission, text: &mut String) {
        let Some(desk) = desk else {
            return self.no_functions(text);
        };
        if !self.reads(&mut submission.step, text) {
            return;
        }
        let (slot, number) = desk.submit(&submission);
        self.refused |= number != 0;
        text.push_str(&match self.explain {
            true => format!("a call of slot {slot}: {}\n\n", submitted(number)),
            false => format!("submit {slot} {number}\n.\n"),
        });
    }

    /// Runs the call whose turn it is.
    pub fn turn(&mut self, desk: Option<&mut Desk>, text: &mut String) {
        let Some(desk) = desk else {
            return self.no_functions(text);
        };
        match desk.turn() {
            None if self.explain => text.push_str("a turn: none waits\n\n"),
            None => text.push_str(&format!("{}\n.\n", turn_text(None))),
            Some(Served { slot, home, mut session, step }) => {
                let served = turn_text(Some(slot));
                text.push_str(&if self.explain { format!("a turn: slot {slot}\n") } else { served + "\n" });
                self.run(&mut session, &step, text);
                desk.ran(home, session);
            }
        }
    }

    /// Runs a case and adds what its function left to the text.
    pub fn case(&mut self, case: &Case, text: &mut String) {
        let Some(functions) = &self.functions else {
            return self.no_functions(text);
        };
        self.refused |= case.number(&**functions) != 0;
        match self.explain {
            true => case.explain(&**functions, text),
            false => case.run(&**functions, text),
        }
    }
}

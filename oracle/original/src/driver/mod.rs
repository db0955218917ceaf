//! Reads a scenario, plays it on the classes of the original's module, and writes the answers.

mod adapters;
mod enumerators;
mod groups;
mod host;
mod scenario;
mod tees;

pub use scenario::Fault;

use crate::builtins::{PyInt, PyTuple, PyType};
use crate::function::FuncArgs;
use crate::object::{AsObject, Py, PyObjectRef};
use crate::protocol::{PyIter, PyIterReturn};
use crate::{stdlib, PyResult, VirtualMachine};
use scenario::{Bad, Scenario};
use std::fmt::Write;
use std::panic::{self, AssertUnwindSafe};

pub const PREDICATE_FAULT: Fault = Fault {
    origin: 2,
    cause: 1,
    place: 0,
};
pub const KEY_FAULT: Fault = Fault {
    origin: 3,
    cause: 1,
    place: 0,
};
pub const JOINING_FAULT: Fault = Fault {
    origin: 4,
    cause: 1,
    place: 0,
};

/// In the place of an answer: the original cannot be asked, since it has no lent pools, buffers, stores or numbers.
const UNASKED: &str = "unasked\n";

/// What a run holds: places of a row, elements of a pool, places of a store and branches made at once.
const LARGEST: u64 = 1000;

pub struct Player {
    vm: VirtualMachine,
    classes: Vec<&'static Py<PyType>>,
}

/// What ends a scenario before all its answers are there: a line says why.
struct Stopped(String);

impl Player {
    pub fn new() -> Player {
        panic::set_hook(Box::new(|_| {}));
        let vm = VirtualMachine::new();
        let classes = stdlib::itertools::make_module(&vm);
        Player { vm, classes }
    }

    /// The answers to a line, and the line that closes them.
    pub fn play(&self, line: &[u8]) -> String {
        let mut out = String::new();
        let played = panic::catch_unwind(AssertUnwindSafe(|| match scenario::read(line) {
            Ok(scenario) => self.play_scenario(&scenario, &mut out),
            Err(Bad) => Err(Stopped("bad scenario".to_owned())),
        }));
        match played {
            Ok(Ok(())) => {}
            Ok(Err(Stopped(why))) => out.push_str(&(why + "\n")),
            Err(_) => out.push_str("panicked\n"),
        }
        out.push_str(".\n");
        out
    }

    fn play_scenario(&self, scenario: &Scenario, out: &mut String) -> Result<(), Stopped> {
        match scenario {
            Scenario::Source(name) => Err(Stopped(format!("skipped: itertools has no {name}"))),
            Scenario::Adapter(adapter) => self.play_adapter(adapter, out),
            Scenario::Enumerator(making, calls) => self.play_enumerator(making, calls, out),
            Scenario::Listing(making, size) => self.play_listing(making, *size, out),
            Scenario::Tee(making, calls) => self.play_tee(making, calls, out),
            Scenario::Groups(making, calls) => self.play_groups(making, calls, out),
        }
    }

    /// Calls the class of this name, as Python's call of it does.
    fn make(&self, name: &str, args: FuncArgs) -> PyResult {
        let class = self
            .classes
            .iter()
            .find(|class| class.name() == name)
            .expect("the module has the class");
        let new = class.slots.new.expect("the class can be called");
        new((*class).to_owned(), args, &self.vm)
    }

    /// Calls `next` on an object.
    fn next(&self, object: &PyObjectRef) -> Result<Answer, Stopped> {
        host::begin_a_call();
        match PyIter::new(object.clone()).next(&self.vm) {
            Ok(PyIterReturn::Return(item)) => Ok(Answer::Item(item)),
            Ok(PyIterReturn::StopIteration(_)) => Ok(Answer::End),
            Err(raised) => raised
                .fault
                .map(Answer::Fault)
                .ok_or_else(|| stopped(&raised)),
        }
    }

    /// Calls `next` on an object whose items are numbers or pairs, and writes its answer. Tells whether that was the end.
    fn step(&self, object: &PyObjectRef, out: &mut String) -> Result<bool, Stopped> {
        let answer = self.next(object)?;
        match &answer {
            Answer::Item(item) => out.push_str(&format!("item{}\n", numbers(item))),
            other => other.write(out),
        }
        Ok(matches!(answer, Answer::End))
    }
}

/// What a call of `next` answered.
enum Answer {
    Item(PyObjectRef),
    End,
    Fault(Fault),
}

impl Answer {
    /// Writes an end or a fault. How an item is written is not the same for all.
    fn write(&self, out: &mut String) {
        match self {
            Answer::Item(_) => {}
            Answer::End => out.push_str("end\n"),
            Answer::Fault(fault) => out.push_str(&format!("{fault}\n")),
        }
    }
}

fn stopped(raised: &crate::builtins::PyBaseExceptionRef) -> Stopped {
    Stopped(format!("{}: {}", raised.class().name(), raised.message))
}

/// The numbers that an object holds, each behind a space.
fn numbers(object: &PyObjectRef) -> String {
    if let Some(PyTuple(items)) = object.payload() {
        return items.iter().map(numbers).collect();
    }
    format!(" {}", number(object))
}

fn number(object: &PyObjectRef) -> u64 {
    let number = object.payload::<PyInt>().expect("items are numbers");
    u64::try_from(number.as_bigint().value()).expect("numbers have 64 bits")
}

/// A word, and behind it the numbers that a buffer begins with and what was in the rest of it.
fn buffer(name: &str, front: &[u64], length: usize) -> String {
    let mut text = name.to_owned();
    for at in 0..length {
        write!(text, " {}", front.get(at).unwrap_or(&7777)).expect("a string takes all");
    }
    text
}

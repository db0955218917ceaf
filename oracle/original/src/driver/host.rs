//! What scenarios give the original from outside: sources, selectors, and what is called.

use super::scenario::{Fault, Joining, Rule, Steps};
use super::{number, JOINING_FAULT, KEY_FAULT, PREDICATE_FAULT};
use crate::builtins::{PyBool, PyType};
use crate::convert::ToPyObject;
use crate::object::{class_of, payload_of, Named, Py, PyClassImpl, PyObjectRef, PyPayload, Slots};
use crate::protocol::PyIterReturn;
use crate::vm::Context;
use crate::{types, PyResult, VirtualMachine};
use std::cell::Cell;

/// How often sources that have ended are asked in one call before it is held that the asking has no end.
const PATIENCE: usize = 1000;

thread_local! {
    static ASKED_AFTER_AN_END: Cell<usize> = const { Cell::new(0) };
}

pub fn begin_a_call() {
    ASKED_AFTER_AN_END.set(0);
}

macro_rules! host_class {
    ($class:ident, $slots:ident => $fill:block) => {
        impl Named for $class {
            const NAME: &'static str = stringify!($class);
        }

        impl PyClassImpl for $class {
            fn fill($slots: &mut Slots) $fill
        }

        impl PyPayload for $class {
            fn class(_: &Context) -> &'static Py<PyType> {
                class_of::<Self>()
            }
        }
    };
}

/// A source: a list of steps ahead, which a call takes one from while there is one.
pub struct Source {
    steps: Vec<Result<PyObjectRef, Fault>>,
    drawn: Cell<usize>,
}

host_class!(Source, slots => {
    slots.iter.store(Some(types::self_iter));
    slots.iternext.store(Some(|zelf, vm| payload_of::<Source>(zelf).next(vm)));
});

impl Source {
    pub fn of_numbers(steps: &Steps, vm: &VirtualMachine) -> PyObjectRef {
        Source::of(steps, vm, |item| item.to_pyobject(vm))
    }

    pub fn of_selectors(steps: &Steps, rule: Rule, vm: &VirtualMachine) -> PyObjectRef {
        Source::of(steps, vm, |value| {
            Selector {
                value,
                bad: rule.bad,
            }
            .into_pyobject(vm)
        })
    }

    fn of(steps: &Steps, vm: &VirtualMachine, object: impl Fn(u64) -> PyObjectRef) -> PyObjectRef {
        Source {
            steps: steps.iter().map(|step| step.map(&object)).collect(),
            drawn: Cell::new(0),
        }
        .into_pyobject(vm)
    }

    fn next(&self, vm: &VirtualMachine) -> PyResult<PyIterReturn> {
        match self.steps.get(self.drawn.get()) {
            Some(step) => {
                self.drawn.set(self.drawn.get() + 1);
                step.clone()
                    .map(PyIterReturn::Return)
                    .map_err(|fault| vm.new_fault(fault))
            }
            None if ASKED_AFTER_AN_END.get() == PATIENCE => {
                Err(vm.new_endless(format!("an ended source was asked {PATIENCE} times")))
            }
            None => {
                ASKED_AFTER_AN_END.set(ASKED_AFTER_AN_END.get() + 1);
                Ok(PyIterReturn::StopIteration(None))
            }
        }
    }

    pub fn left(&self) -> usize {
        self.steps.len() - self.drawn.get()
    }

    /// The items that were drawn, in their order.
    pub fn given(&self) -> Vec<u64> {
        self.steps[..self.drawn.get()]
            .iter()
            .filter_map(|step| step.as_ref().ok())
            .map(number)
            .collect()
    }
}

/// A selector: its truth is what the scenario's rule says of it.
pub struct Selector {
    value: u64,
    bad: Option<u64>,
}

host_class!(Selector, slots => {
    slots.truth = Some(|zelf, vm| {
        let Selector { value, bad } = *payload_of(zelf);
        if Some(value) == bad {
            Err(vm.new_fault(PREDICATE_FAULT))
        } else {
            Ok(value != 0)
        }
    });
});

/// What the original calls.
pub enum Callable {
    Below(Rule),
    Modulo(Rule),
    Joined(Joining),
}

host_class!(Callable, slots => {
    slots.call = Some(|zelf, args, vm| {
        let values: Vec<u64> = args.args.iter().map(number).collect();
        let answer = match (payload_of(zelf), &values[..]) {
            (Callable::Below(rule), [item]) => rule.asked(*item, PREDICATE_FAULT).map(|item| PyBool(item < rule.number).into_pyobject(vm)),
            (Callable::Modulo(rule), [item]) => rule.asked(*item, KEY_FAULT).map(|item| (item % rule.number).to_pyobject(vm)),
            (Callable::Joined(joining), [total, item]) => joining.joined(*total, *item).map(|total| total.to_pyobject(vm)),
            _ => return Err(vm.new_type_error("another number of arguments is wanted".to_owned())),
        };
        answer.map_err(|fault| vm.new_fault(fault))
    });
});

impl Rule {
    fn asked(&self, item: u64, fault: Fault) -> Result<u64, Fault> {
        if Some(item) == self.bad {
            Err(fault)
        } else {
            Ok(item)
        }
    }
}

impl Joining {
    fn joined(self, total: u64, item: u64) -> Result<u64, Fault> {
        match self {
            Joining::Max => Ok(total.max(item)),
            Joining::Sum => total.checked_add(item).ok_or(JOINING_FAULT),
        }
    }
}

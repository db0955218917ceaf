//! How a type becomes a class: its making and its stepping.

use crate::builtins::PyTypeRef;
use crate::function::{FromArgs, FuncArgs};
use crate::object::{Py, PyObject, PyObjectRef, PyPayload};
use crate::protocol::PyIterReturn;
use crate::{PyResult, VirtualMachine};

pub trait Constructor: PyPayload {
    type Args: FromArgs;

    fn slot_new(cls: PyTypeRef, args: FuncArgs, vm: &VirtualMachine) -> PyResult {
        let args: Self::Args = args.bind(vm)?;
        Self::py_new(cls, args, vm)
    }

    fn py_new(cls: PyTypeRef, args: Self::Args, vm: &VirtualMachine) -> PyResult;
}

pub trait IterNext: PyPayload {
    fn slot_iternext(zelf: &PyObject, vm: &VirtualMachine) -> PyResult<PyIterReturn> {
        let zelf =
            Py::from_object(zelf.to_owned()).expect("a slot is called on an object of its class");
        Self::next(&zelf, vm)
    }

    fn next(zelf: &Py<Self>, vm: &VirtualMachine) -> PyResult<PyIterReturn>;
}

/// Of a type that is its own iterator. Its slot is `self_iter`.
pub trait SelfIter {}

pub trait Iterable {}

impl<T: SelfIter> Iterable for T {}

pub fn self_iter(zelf: PyObjectRef, _vm: &VirtualMachine) -> PyResult {
    Ok(zelf)
}

/// Of types that are not ported.
#[allow(dead_code)]
pub trait Representable: PyPayload {
    fn repr_str(zelf: &Py<Self>, vm: &VirtualMachine) -> PyResult<String>;
}

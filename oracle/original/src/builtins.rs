//! Python's own types, as far as the module names them.

use crate::convert::ToPyObject;
use crate::object::{class_of, Named, Py, PyClassImpl, PyObjectRef, PyPayload, PyRef, Slots};
use crate::protocol::PyIterReturn;
use crate::vm::Context;
use crate::{types, PyResult, VirtualMachine};
use malachite_bigint::BigInt;
use std::cell::Cell;

pub struct PyType {
    pub name: &'static str,
    pub slots: Slots,
}

pub type PyTypeRef = PyRef<PyType>;

impl PyType {
    pub fn name(&self) -> &'static str {
        self.name
    }

    /// No class here is derived from another.
    pub fn mro_find_map<T>(&self, found: impl Fn(&PyType) -> Option<T>) -> Option<T> {
        found(self)
    }

    pub fn has_attr(&self, name: &str) -> bool {
        name == "__copy__" && self.slots.copy.is_some()
    }
}

macro_rules! plain_classes {
    ($($class:ident = $name:literal),*) => {$(
        impl Named for $class {
            const NAME: &'static str = $name;
        }

        impl PyClassImpl for $class {
            fn fill(_slots: &mut Slots) {}
        }

        impl PyPayload for $class {
            fn class(_: &Context) -> &'static Py<PyType> {
                class_of::<Self>()
            }
        }
    )*};
}

pub struct PyNone;
pub struct PyBool(pub bool);
pub struct PyInt(BigInt);
pub struct PyTuple(pub Vec<PyObjectRef>);

plain_classes!(
    PyNone = "NoneType",
    PyBool = "bool",
    PyInt = "int",
    PyTuple = "tuple"
);

pub type PyIntRef = PyRef<PyInt>;
pub type PyTupleRef = PyRef<PyTuple>;

impl PyInt {
    pub fn new(value: BigInt) -> PyInt {
        PyInt(value)
    }

    pub fn as_bigint(&self) -> &BigInt {
        &self.0
    }

    pub fn try_to_primitive<T: TryFrom<i128>>(&self, vm: &VirtualMachine) -> PyResult<T> {
        T::try_from(self.0.value()).map_err(|_| vm.new_overflow_error("int too large".to_owned()))
    }
}

pub mod int {
    use super::{BigInt, PyInt, PyObjectRef};

    pub fn get_value(object: &PyObjectRef) -> &BigInt {
        object
            .payload::<PyInt>()
            .expect("a number is wanted")
            .as_bigint()
    }
}

impl PyTuple {
    pub fn new_ref(items: Vec<PyObjectRef>, ctx: &Context) -> PyTupleRef {
        PyTuple(items).into_ref(ctx)
    }
}

pub mod tuple {
    use super::{PyObjectRef, PyTuple, PyTupleRef};
    use crate::convert::ToPyObject;
    use crate::VirtualMachine;

    pub trait IntoPyTuple {
        fn into_pytuple(self, vm: &VirtualMachine) -> PyTupleRef;
    }

    impl IntoPyTuple for Vec<PyObjectRef> {
        fn into_pytuple(self, vm: &VirtualMachine) -> PyTupleRef {
            PyTuple::new_ref(self, &vm.ctx)
        }
    }

    impl IntoPyTuple for () {
        fn into_pytuple(self, vm: &VirtualMachine) -> PyTupleRef {
            Vec::new().into_pytuple(vm)
        }
    }

    impl<A: ToPyObject, B: ToPyObject> IntoPyTuple for (A, B) {
        fn into_pytuple(self, vm: &VirtualMachine) -> PyTupleRef {
            vec![self.0.to_pyobject(vm), self.1.to_pyobject(vm)].into_pytuple(vm)
        }
    }
}

/// A list. The pools of enumerators and the sources of a chain come in lists.
pub struct PyList(pub Vec<PyObjectRef>);

impl From<Vec<PyObjectRef>> for PyList {
    fn from(items: Vec<PyObjectRef>) -> PyList {
        PyList(items)
    }
}

impl ToPyObject for PyList {
    fn to_pyobject(self, vm: &VirtualMachine) -> PyObjectRef {
        self.into_pyobject(vm)
    }
}

impl Named for PyList {
    const NAME: &'static str = "list";
}

impl PyClassImpl for PyList {
    fn fill(slots: &mut Slots) {
        slots.iter.store(Some(|list, vm| {
            Ok(ListIterator {
                list,
                at: Cell::new(0),
            }
            .into_pyobject(vm))
        }));
    }
}

impl PyPayload for PyList {
    fn class(_: &Context) -> &'static Py<PyType> {
        class_of::<Self>()
    }
}

struct ListIterator {
    list: PyObjectRef,
    at: Cell<usize>,
}

impl Named for ListIterator {
    const NAME: &'static str = "list_iterator";
}

impl PyClassImpl for ListIterator {
    fn fill(slots: &mut Slots) {
        slots.iter.store(Some(types::self_iter));
        slots.iternext.store(Some(|zelf, _vm| {
            let zelf: &ListIterator = crate::object::payload_of(zelf);
            let PyList(items) = crate::object::payload_of(&zelf.list);
            let at = zelf.at.replace(zelf.at.get() + 1);
            Ok(items
                .get(at)
                .cloned()
                .map_or(PyIterReturn::StopIteration(None), PyIterReturn::Return))
        }));
    }
}

impl PyPayload for ListIterator {
    fn class(_: &Context) -> &'static Py<PyType> {
        class_of::<Self>()
    }
}

pub mod iter {
    use super::{PyObjectRef, VirtualMachine};
    use crate::PyResult;

    /// An iterator by `__getitem__`, which no object here has.
    pub enum PySequenceIterator {}

    impl PySequenceIterator {
        pub fn new(_object: PyObjectRef, vm: &VirtualMachine) -> PyResult<PySequenceIterator> {
            Err(vm.new_type_error("object is not iterable".to_owned()))
        }

        pub fn into_pyobject(self, _vm: &VirtualMachine) -> PyObjectRef {
            match self {}
        }
    }
}

/// What is raised: its class, a message for a reader, and the fault that it is, if it is one.
pub struct PyBaseException {
    pub message: String,
    pub args: Vec<PyObjectRef>,
    pub fault: Option<crate::driver::Fault>,
}

pub type PyBaseExceptionRef = PyRef<PyBaseException>;

impl PyBaseException {
    pub fn get_arg(&self, at: usize) -> Option<PyObjectRef> {
        self.args.get(at).cloned()
    }
}

impl Named for PyBaseException {
    const NAME: &'static str = "Exception";
}

impl PyClassImpl for PyBaseException {
    fn fill(_slots: &mut Slots) {}
}

impl PyPayload for PyBaseException {
    fn class(_: &Context) -> &'static Py<PyType> {
        class_of::<Self>()
    }
}

/// Named by what is left out.
pub struct PyGenericAlias;

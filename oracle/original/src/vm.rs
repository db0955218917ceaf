//! The machine: what the original asks of the host. Truth, equality, addition and calls mean what the rules say.

use crate::builtins::tuple::IntoPyTuple;
use crate::builtins::{
    PyBaseException, PyBaseExceptionRef, PyInt, PyIntRef, PyNone, PyTuple, PyTupleRef, PyType,
};
use crate::convert::ToPyObject;
use crate::driver;
use crate::object::{class_of, made, new_class, Py, PyObject, PyObjectRef, PyPayload, Slots};
use crate::PyResult;

pub struct VirtualMachine {
    pub ctx: Context,
}

pub struct Context {
    pub none: PyObjectRef,
    pub types: Types,
    pub exceptions: Exceptions,
}

pub struct Types {
    pub int_type: &'static Py<PyType>,
}

pub struct Exceptions {
    pub stop_iteration: &'static Py<PyType>,
    pub stop_async_iteration: &'static Py<PyType>,
    pub index_error: &'static Py<PyType>,
    pub type_error: &'static Py<PyType>,
    pub value_error: &'static Py<PyType>,
    pub overflow_error: &'static Py<PyType>,
    pub fault: &'static Py<PyType>,
    pub endless: &'static Py<PyType>,
}

impl Exceptions {
    fn new() -> Exceptions {
        let class = |name| -> &'static Py<PyType> {
            Box::leak(Box::new(new_class(name, Slots::default())))
        };
        Exceptions {
            stop_iteration: class("StopIteration"),
            stop_async_iteration: class("StopAsyncIteration"),
            index_error: class("IndexError"),
            type_error: class("TypeError"),
            value_error: class("ValueError"),
            overflow_error: class("OverflowError"),
            fault: class("fault"),
            endless: class("endless"),
        }
    }
}

impl Context {
    pub fn new_int(&self, value: i32) -> PyIntRef {
        PyInt::new(i128::from(value).into()).into_ref(self)
    }

    pub fn new_tuple(&self, items: Vec<PyObjectRef>) -> PyTupleRef {
        PyTuple::new_ref(items, self)
    }
}

/// The name of a method.
macro_rules! identifier {
    ($vm:expr, $name:ident) => {
        stringify!($name)
    };
}
pub(crate) use identifier;

impl VirtualMachine {
    pub fn new() -> VirtualMachine {
        VirtualMachine {
            ctx: Context {
                none: made(PyNone, class_of::<PyNone>().to_owned()).into(),
                types: Types {
                    int_type: class_of::<PyInt>(),
                },
                exceptions: Exceptions::new(),
            },
        }
    }

    pub fn is_none(&self, object: &PyObject) -> bool {
        object.payload::<PyNone>().is_some()
    }

    pub fn new_pyobj(&self, value: impl ToPyObject) -> PyObjectRef {
        value.to_pyobject(self)
    }

    pub fn new_tuple(&self, items: impl IntoPyTuple) -> PyTupleRef {
        items.into_pytuple(self)
    }

    fn numbers(&self, left: &PyObject, right: &PyObject) -> PyResult<(i128, i128)> {
        match (left.payload::<PyInt>(), right.payload::<PyInt>()) {
            (Some(left), Some(right)) => Ok((left.as_bigint().value(), right.as_bigint().value())),
            _ => Err(self.new_type_error("numbers are wanted".to_owned())),
        }
    }

    pub fn bool_eq(&self, left: &PyObject, right: &PyObject) -> PyResult<bool> {
        self.numbers(left, right).map(|(left, right)| left == right)
    }

    /// The sum, or a fault of the joining where it passes 64 bits.
    pub fn _add(&self, left: &PyObject, right: &PyObject) -> PyResult {
        let (left, right) = self.numbers(left, right)?;
        match u64::try_from(left + right) {
            Ok(sum) => Ok(sum.to_pyobject(self)),
            Err(_) => Err(self.new_fault(driver::JOINING_FAULT)),
        }
    }

    pub fn _iadd(&self, left: &PyObject, right: &PyObject) -> PyResult {
        self._add(left, right)
    }

    /// The only method that the original calls by its name is `__copy__`.
    pub fn call_special_method(&self, object: &PyObject, method: &str, _args: ()) -> PyResult {
        match method {
            "__copy__" => object.copy(self),
            _ => Err(self.new_type_error("no such method".to_owned())),
        }
    }

    pub fn length_hint_opt(&self, _object: PyObjectRef) -> PyResult<Option<usize>> {
        Ok(None)
    }

    fn raised(class: &Py<PyType>, raised: PyBaseException) -> PyBaseExceptionRef {
        made(raised, class.to_owned())
    }

    fn told(&self, class: &Py<PyType>, message: String) -> PyBaseExceptionRef {
        Self::raised(
            class,
            PyBaseException {
                message,
                args: vec![],
                fault: None,
            },
        )
    }

    pub fn new_type_error(&self, message: String) -> PyBaseExceptionRef {
        self.told(self.ctx.exceptions.type_error, message)
    }

    pub fn new_value_error(&self, message: String) -> PyBaseExceptionRef {
        self.told(self.ctx.exceptions.value_error, message)
    }

    pub fn new_overflow_error(&self, message: String) -> PyBaseExceptionRef {
        self.told(self.ctx.exceptions.overflow_error, message)
    }

    pub fn new_exception(
        &self,
        class: crate::builtins::PyTypeRef,
        args: Vec<PyObjectRef>,
    ) -> PyBaseExceptionRef {
        Self::raised(
            &class,
            PyBaseException {
                message: String::new(),
                args,
                fault: None,
            },
        )
    }

    pub fn new_stop_iteration(&self, value: Option<PyObjectRef>) -> PyBaseExceptionRef {
        self.new_exception(
            self.ctx.exceptions.stop_iteration.to_owned(),
            value.into_iter().collect(),
        )
    }

    /// Not of Python: ends a scenario whose calls would go on for ever.
    pub fn new_endless(&self, message: String) -> PyBaseExceptionRef {
        self.told(self.ctx.exceptions.endless, message)
    }

    pub fn new_fault(&self, fault: driver::Fault) -> PyBaseExceptionRef {
        let raised = PyBaseException {
            message: String::new(),
            args: vec![],
            fault: Some(fault),
        };
        Self::raised(self.ctx.exceptions.fault, raised)
    }
}

//! From Rust's values to Python's and back.

use crate::builtins::{PyInt, PyIntRef};
use crate::object::{Py, PyObjectRef, PyPayload, PyRef};
use crate::{PyResult, VirtualMachine};

pub trait ToPyObject {
    fn to_pyobject(self, vm: &VirtualMachine) -> PyObjectRef;
}

pub trait ToPyResult {
    fn to_pyresult(self, vm: &VirtualMachine) -> PyResult;
}

impl ToPyObject for PyObjectRef {
    fn to_pyobject(self, _vm: &VirtualMachine) -> PyObjectRef {
        self
    }
}

impl<T> ToPyObject for PyRef<T> {
    fn to_pyobject(self, _vm: &VirtualMachine) -> PyObjectRef {
        self.into()
    }
}

impl<A: ToPyObject, B: ToPyObject> ToPyObject for (A, B) {
    fn to_pyobject(self, vm: &VirtualMachine) -> PyObjectRef {
        vm.new_tuple(self).into()
    }
}

macro_rules! numbers {
    ($($number:ty),*) => {$(
        impl ToPyObject for $number {
            fn to_pyobject(self, vm: &VirtualMachine) -> PyObjectRef {
                let value: i128 = self.try_into().expect("a number of at most 64 bits");
                PyInt::new(value.into()).into_pyobject(vm)
            }
        }
    )*};
}

numbers!(i32, u64, usize);

pub trait TryFromObject: Sized {
    fn try_from_object(vm: &VirtualMachine, object: PyObjectRef) -> PyResult<Self>;
}

impl TryFromObject for PyObjectRef {
    fn try_from_object(_vm: &VirtualMachine, object: PyObjectRef) -> PyResult<Self> {
        Ok(object)
    }
}

impl TryFromObject for PyIntRef {
    fn try_from_object(vm: &VirtualMachine, object: PyObjectRef) -> PyResult<Self> {
        let number = Py::from_object(object)
            .ok_or_else(|| vm.new_type_error("a number is wanted".to_owned()))?;
        Ok(ToOwned::to_owned(&number))
    }
}

impl TryFromObject for usize {
    fn try_from_object(vm: &VirtualMachine, object: PyObjectRef) -> PyResult<Self> {
        PyIntRef::try_from_object(vm, object)?.try_to_primitive(vm)
    }
}

impl<T: TryFromObject> TryFromObject for Option<T> {
    fn try_from_object(vm: &VirtualMachine, object: PyObjectRef) -> PyResult<Self> {
        if vm.is_none(&object) {
            return Ok(None);
        }
        T::try_from_object(vm, object).map(Some)
    }
}

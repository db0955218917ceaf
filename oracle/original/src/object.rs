//! Objects, their classes, and typed and weak references to them.

use crate::builtins::{PyBool, PyInt, PyList, PyType, PyTypeRef};
use crate::function::{FuncArgs, IntoFuncArgs};
use crate::protocol::{PyIter, PyIterReturn};
use crate::vm::Context;
use crate::{PyResult, TryFromObject, VirtualMachine};
use crossbeam_utils::atomic::AtomicCell;
use std::any::{Any, TypeId};
use std::borrow::Borrow;
use std::cell::RefCell;
use std::collections::HashMap;
use std::fmt;
use std::marker::PhantomData;
use std::ops::Deref;
use std::rc::{Rc, Weak};

/// An object: its class, none where it is a class itself, and what it holds.
pub struct PyObject {
    class: Option<PyTypeRef>,
    payload: Rc<dyn Any>,
    this: Weak<PyObject>,
}

#[derive(Clone)]
pub struct PyObjectRef(Rc<PyObject>);

/// An object that is known to hold a `T`.
pub struct Py<T> {
    object: PyObjectRef,
    payload: Rc<T>,
}

pub struct PyRef<T>(Py<T>);

pub struct PyWeakRef<T> {
    object: Weak<PyObject>,
    holds: PhantomData<T>,
}

impl PyObject {
    fn of(class: Option<PyTypeRef>, payload: Rc<dyn Any>) -> PyObjectRef {
        PyObjectRef(Rc::new_cyclic(|this| PyObject {
            class,
            payload,
            this: this.clone(),
        }))
    }

    pub fn payload<T: 'static>(&self) -> Option<&T> {
        self.payload.downcast_ref()
    }

    fn slots(&self) -> &Slots {
        &self.class().slots
    }

    pub fn get_iter(&self, vm: &VirtualMachine) -> PyResult<PyIter> {
        PyIter::try_from_object(vm, self.to_owned())
    }

    pub fn call(&self, args: impl IntoFuncArgs, vm: &VirtualMachine) -> PyResult {
        match self.slots().call {
            Some(call) => call(self, args.into_args(vm), vm),
            None => Err(vm.new_type_error("object is not callable".to_owned())),
        }
    }

    pub fn copy(&self, vm: &VirtualMachine) -> PyResult {
        match self.slots().copy {
            Some(copy) => copy(self, vm),
            None => Err(vm.new_type_error("object cannot be copied".to_owned())),
        }
    }

    pub fn try_to_bool(&self, vm: &VirtualMachine) -> PyResult<bool> {
        if let Some(truth) = self.slots().truth {
            return truth(self, vm);
        }
        match self.payload() {
            Some(PyBool(value)) => Ok(*value),
            None => Err(vm.new_type_error("object has no truth here".to_owned())),
        }
    }

    pub fn try_to_value<T: TryFromObject>(&self, vm: &VirtualMachine) -> PyResult<T> {
        T::try_from_object(vm, self.to_owned())
    }

    pub fn repr(&self, vm: &VirtualMachine) -> PyResult<String> {
        match self.payload::<PyInt>() {
            Some(number) => Ok(number.as_bigint().to_string()),
            None => Err(vm.new_type_error("only numbers are shown here".to_owned())),
        }
    }
}

/// What is asked of anything that refers to an object.
pub trait AsObject: Borrow<PyObject> {
    fn as_object(&self) -> &PyObject {
        self.borrow()
    }

    fn is<T: AsObject>(&self, other: &T) -> bool {
        std::ptr::eq(self.as_object(), other.as_object())
    }

    fn class(&self) -> &Py<PyType> {
        self.as_object()
            .class
            .as_ref()
            .expect("a class of classes is not needed here")
    }

    fn fast_isinstance(&self, class: &Py<PyType>) -> bool {
        self.class().is(class)
    }
}

impl<T: Borrow<PyObject>> AsObject for T {}

impl ToOwned for PyObject {
    type Owned = PyObjectRef;

    fn to_owned(&self) -> PyObjectRef {
        PyObjectRef(
            self.this
                .upgrade()
                .expect("an object that is borrowed is there"),
        )
    }
}

impl Deref for PyObjectRef {
    type Target = PyObject;

    fn deref(&self) -> &PyObject {
        &self.0
    }
}

impl Borrow<PyObject> for PyObjectRef {
    fn borrow(&self) -> &PyObject {
        self
    }
}

impl AsRef<PyObject> for PyObjectRef {
    fn as_ref(&self) -> &PyObject {
        self
    }
}

impl fmt::Debug for PyObjectRef {
    fn fmt(&self, f: &mut fmt::Formatter<'_>) -> fmt::Result {
        f.write_str("object")
    }
}

impl<T: 'static> Py<T> {
    /// The reference to an object, if it holds a `T`.
    pub fn from_object(object: PyObjectRef) -> Option<Py<T>> {
        let payload = object.0.payload.clone().downcast().ok()?;
        Some(Py { object, payload })
    }
}

impl<T> Deref for Py<T> {
    type Target = T;

    fn deref(&self) -> &T {
        &self.payload
    }
}

impl<T> Borrow<PyObject> for Py<T> {
    fn borrow(&self) -> &PyObject {
        &self.object
    }
}

impl<T> ToOwned for Py<T> {
    type Owned = PyRef<T>;

    fn to_owned(&self) -> PyRef<T> {
        PyRef(Py {
            object: self.object.clone(),
            payload: self.payload.clone(),
        })
    }
}

impl<T> PyRef<T> {
    pub fn downgrade(
        &self,
        _callback: Option<PyObjectRef>,
        _vm: &VirtualMachine,
    ) -> PyResult<PyWeakRef<T>> {
        Ok(PyWeakRef {
            object: Rc::downgrade(&self.object.0),
            holds: PhantomData,
        })
    }
}

impl<T> Deref for PyRef<T> {
    type Target = Py<T>;

    fn deref(&self) -> &Py<T> {
        &self.0
    }
}

impl<T> Borrow<PyObject> for PyRef<T> {
    fn borrow(&self) -> &PyObject {
        &self.object
    }
}

impl<T> Borrow<Py<T>> for PyRef<T> {
    fn borrow(&self) -> &Py<T> {
        self
    }
}

impl<T> Clone for PyRef<T> {
    fn clone(&self) -> Self {
        ToOwned::to_owned(&self.0)
    }
}

impl<T> fmt::Debug for PyRef<T> {
    fn fmt(&self, f: &mut fmt::Formatter<'_>) -> fmt::Result {
        f.write_str("object")
    }
}

impl<T> From<PyRef<T>> for PyObjectRef {
    fn from(reference: PyRef<T>) -> PyObjectRef {
        reference.0.object
    }
}

impl<T: 'static> PyWeakRef<T> {
    pub fn upgrade(&self) -> Option<PyRef<T>> {
        let object = PyObjectRef(self.object.upgrade()?);
        Py::from_object(object).map(PyRef)
    }
}

/// A type whose values objects can hold.
pub trait PyPayload: Sized + 'static {
    fn class(ctx: &Context) -> &'static Py<PyType>;

    fn into_ref(self, ctx: &Context) -> PyRef<Self> {
        made(self, Self::class(ctx).to_owned())
    }

    fn into_ref_with_type(self, _vm: &VirtualMachine, class: PyTypeRef) -> PyResult<PyRef<Self>> {
        Ok(made(self, class))
    }

    fn into_pyobject(self, vm: &VirtualMachine) -> PyObjectRef {
        self.into_ref(&vm.ctx).into()
    }
}

pub fn made<T: 'static>(value: T, class: PyTypeRef) -> PyRef<T> {
    let payload = Rc::new(value);
    PyRef(Py {
        object: PyObject::of(Some(class), payload.clone()),
        payload,
    })
}

/// The value in an object whose class has said that it holds one.
pub fn payload_of<T: 'static>(object: &PyObject) -> &T {
    object
        .payload()
        .expect("a slot is called on an object of its class")
}

pub type IterNextFunc = fn(&PyObject, &VirtualMachine) -> PyResult<PyIterReturn>;
pub type IterFunc = fn(PyObjectRef, &VirtualMachine) -> PyResult;
pub type NewFunc = fn(PyTypeRef, FuncArgs, &VirtualMachine) -> PyResult;
pub type CallFunc = fn(&PyObject, FuncArgs, &VirtualMachine) -> PyResult;
pub type CopyFunc = fn(&PyObject, &VirtualMachine) -> PyResult;
pub type TruthFunc = fn(&PyObject, &VirtualMachine) -> PyResult<bool>;

/// What the objects of a class can do.
#[derive(Default)]
pub struct Slots {
    pub new: Option<NewFunc>,
    pub iter: AtomicCell<Option<IterFunc>>,
    pub iternext: AtomicCell<Option<IterNextFunc>>,
    pub call: Option<CallFunc>,
    pub copy: Option<CopyFunc>,
    pub truth: Option<TruthFunc>,
}

pub trait Named {
    const NAME: &'static str;
}

/// A type that is a class of its own.
pub trait PyClassImpl: Named + 'static {
    fn fill(slots: &mut Slots);
}

thread_local! {
    static CLASSES: RefCell<HashMap<TypeId, &'static Py<PyType>>> = RefCell::default();
}

/// The class of a type. It is made once and kept to the end of the run.
pub fn class_of<T: PyClassImpl>() -> &'static Py<PyType> {
    CLASSES.with_borrow_mut(|classes| {
        *classes.entry(TypeId::of::<T>()).or_insert_with(|| {
            let mut slots = Slots::default();
            T::fill(&mut slots);
            Box::leak(Box::new(new_class(T::NAME, slots)))
        })
    })
}

/// A class, and an object that stands for it.
pub fn new_class(name: &'static str, slots: Slots) -> Py<PyType> {
    let payload = Rc::new(PyType { name, slots });
    Py {
        object: PyObject::of(None, payload.clone()),
        payload,
    }
}

impl TryFromObject for Vec<PyObjectRef> {
    fn try_from_object(vm: &VirtualMachine, object: PyObjectRef) -> PyResult<Self> {
        if let Some(PyList(items)) = object.payload() {
            return Ok(items.clone());
        }
        object.get_iter(vm)?.into_iter(vm)?.collect()
    }
}

/// For the collector of cycles, which is not needed here.
pub struct TraverseFn;

/// # Safety
/// Nothing here relies on it.
pub unsafe trait Traverse {
    fn traverse(&self, _tracer: &mut TraverseFn) {}
}

unsafe impl Traverse for PyObject {}
unsafe impl Traverse for PyObjectRef {}

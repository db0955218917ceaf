//! The arguments of a call, and what a making wants of them.

use crate::convert::{ToPyObject, TryFromObject};
use crate::object::PyObjectRef;
use crate::protocol::PyIter;
use crate::{PyResult, VirtualMachine};

#[derive(Default)]
pub struct FuncArgs {
    pub args: Vec<PyObjectRef>,
    pub kwargs: Vec<(&'static str, PyObjectRef)>,
}

impl FuncArgs {
    pub fn bind<T: FromArgs>(mut self, vm: &VirtualMachine) -> PyResult<T> {
        let bound = T::from_args(vm, &mut self)?;
        if self.args.is_empty() && self.kwargs.is_empty() {
            Ok(bound)
        } else {
            Err(vm.new_type_error("too many arguments".to_owned()))
        }
    }

    /// The argument of this name, or else, where it may be one, the next without a name.
    pub fn take(&mut self, positional: bool, name: &str) -> Option<PyObjectRef> {
        if let Some(at) = self.kwargs.iter().position(|(given, _)| *given == name) {
            return Some(self.kwargs.remove(at).1);
        }
        (positional && !self.args.is_empty()).then(|| self.args.remove(0))
    }
}

pub trait IntoFuncArgs {
    fn into_args(self, vm: &VirtualMachine) -> FuncArgs;
}

impl IntoFuncArgs for Vec<PyObjectRef> {
    fn into_args(self, _vm: &VirtualMachine) -> FuncArgs {
        FuncArgs {
            args: self,
            ..FuncArgs::default()
        }
    }
}

impl<A: ToPyObject> IntoFuncArgs for (A,) {
    fn into_args(self, vm: &VirtualMachine) -> FuncArgs {
        vec![self.0.to_pyobject(vm)].into_args(vm)
    }
}

impl<A: ToPyObject, B: ToPyObject> IntoFuncArgs for (A, B) {
    fn into_args(self, vm: &VirtualMachine) -> FuncArgs {
        vec![self.0.to_pyobject(vm), self.1.to_pyobject(vm)].into_args(vm)
    }
}

pub trait FromArgs: Sized {
    fn from_args(vm: &VirtualMachine, args: &mut FuncArgs) -> PyResult<Self>;
}

pub fn required<T: TryFromObject>(vm: &VirtualMachine, given: Option<PyObjectRef>) -> PyResult<T> {
    match given {
        Some(object) => T::try_from_object(vm, object),
        None => Err(vm.new_type_error("an argument is missing".to_owned())),
    }
}

pub fn optional<T: TryFromObject>(
    vm: &VirtualMachine,
    given: Option<PyObjectRef>,
) -> PyResult<OptionalArg<T>> {
    match given {
        Some(object) => T::try_from_object(vm, object).map(OptionalArg::Present),
        None => Ok(OptionalArg::Missing),
    }
}

pub enum OptionalArg<T = PyObjectRef> {
    Present(T),
    Missing,
}

pub type OptionalOption<T = PyObjectRef> = OptionalArg<Option<T>>;

impl<T> OptionalArg<T> {
    pub fn into_option(self) -> Option<T> {
        match self {
            OptionalArg::Present(value) => Some(value),
            OptionalArg::Missing => None,
        }
    }

    pub fn unwrap_or(self, other: T) -> T {
        self.into_option().unwrap_or(other)
    }
}

impl OptionalArg<PyObjectRef> {
    pub fn unwrap_or_none(self, vm: &VirtualMachine) -> PyObjectRef {
        self.unwrap_or(vm.ctx.none.clone())
    }
}

impl<T> OptionalOption<T> {
    pub fn flatten(self) -> Option<T> {
        self.into_option().flatten()
    }
}

/// All arguments without a name.
pub struct PosArgs<T = PyObjectRef>(Vec<T>);

impl<T> PosArgs<T> {
    pub fn iter(&self) -> std::slice::Iter<'_, T> {
        self.0.iter()
    }

    pub fn into_vec(self) -> Vec<T> {
        self.0
    }
}

impl<T: TryFromObject> FromArgs for PosArgs<T> {
    fn from_args(vm: &VirtualMachine, args: &mut FuncArgs) -> PyResult<Self> {
        let given = std::mem::take(&mut args.args);
        given
            .into_iter()
            .map(|object| T::try_from_object(vm, object))
            .collect::<PyResult<_>>()
            .map(PosArgs)
    }
}

impl FromArgs for PyIter {
    fn from_args(vm: &VirtualMachine, args: &mut FuncArgs) -> PyResult<Self> {
        required(vm, args.take(true, ""))
    }
}

impl FromArgs for PyObjectRef {
    fn from_args(vm: &VirtualMachine, args: &mut FuncArgs) -> PyResult<Self> {
        required(vm, args.take(true, ""))
    }
}

impl<A: FromArgs, B: FromArgs> FromArgs for (A, B) {
    fn from_args(vm: &VirtualMachine, args: &mut FuncArgs) -> PyResult<Self> {
        Ok((A::from_args(vm, args)?, B::from_args(vm, args)?))
    }
}

impl<A: FromArgs, B: FromArgs, C: FromArgs> FromArgs for (A, B, C) {
    fn from_args(vm: &VirtualMachine, args: &mut FuncArgs) -> PyResult<Self> {
        Ok((
            A::from_args(vm, args)?,
            B::from_args(vm, args)?,
            C::from_args(vm, args)?,
        ))
    }
}

impl<A: FromArgs, B: FromArgs, C: FromArgs, D: FromArgs> FromArgs for (A, B, C, D) {
    fn from_args(vm: &VirtualMachine, args: &mut FuncArgs) -> PyResult<Self> {
        let (a, b, c) = FromArgs::from_args(vm, args)?;
        Ok((a, b, c, D::from_args(vm, args)?))
    }
}

/// An argument that is to be called.
#[derive(Debug, Clone)]
pub struct ArgCallable(PyObjectRef);

impl ArgCallable {
    pub fn invoke<A: IntoFuncArgs>(&self, args: A, vm: &VirtualMachine) -> PyResult {
        self.0.call(args, vm)
    }
}

impl TryFromObject for ArgCallable {
    fn try_from_object(_vm: &VirtualMachine, object: PyObjectRef) -> PyResult<Self> {
        Ok(ArgCallable(object))
    }
}

/// Named by what is left out.
pub struct ArgIntoBool;

//! Stand-ins for the attributes and derives that the original's text carries. They write what lets its bodies
//! run: the classes with their slots, how a call's arguments are bound, and the table of the module.
//! The bodies themselves go through as they are. Left out is each `#[pymethod]` and `#[pyclassmethod]` but
//! `copy`: pickling, length hints, `chain.from_iterable` and the like.

mod tokens;

use proc_macro::{TokenStream, TokenTree};
use tokens::{ident_after, is_ident, Item};

/// On the module: adds `make_module`, the table of the classes that the module names.
#[proc_macro_attribute]
pub fn pymodule(_: TokenStream, module: TokenStream) -> TokenStream {
    let mut trees: Vec<TokenTree> = module.into_iter().collect();
    let Some(TokenTree::Group(body)) = trees.pop() else {
        panic!("a module with a body is wanted");
    };
    let mut classes = Vec::new();
    for item in tokens::items(body.stream()) {
        let named = item
            .attributes
            .iter()
            .any(|a| a.name == "pyclass" && a.says("name"));
        if named {
            classes.push(ident_after(&item.tokens, "struct").expect("a struct is wanted"));
        }
    }
    let table: String = classes
        .iter()
        .map(|class| format!("<{class} as crate::PyPayload>::class(&vm.ctx),"))
        .collect();
    let maker = format!(
        "pub(crate) fn make_module(vm: &crate::VirtualMachine) -> Vec<&'static crate::Py<crate::builtins::PyType>> {{ vec![{table}] }}"
    );
    let inner: TokenStream = [body.stream(), maker.parse().unwrap()]
        .into_iter()
        .collect();
    trees.push(tokens::braced(inner));
    trees.into_iter().collect()
}

/// On a class: it is in the module's table, which `pymodule` has seen to.
#[proc_macro_attribute]
pub fn pyattr(_: TokenStream, item: TokenStream) -> TokenStream {
    item
}

/// On a struct: its name in Python. On an impl: the class, with the slots that it has.
#[proc_macro_attribute]
pub fn pyclass(arguments: TokenStream, item: TokenStream) -> TokenStream {
    let trees: Vec<TokenTree> = item.clone().into_iter().collect();
    if let Some(name) = ident_after(&trees, "struct") {
        let python = arguments
            .into_iter()
            .nth(2)
            .expect("name = \"...\" is wanted");
        let named = format!(
            "impl crate::object::Named for {name} {{ const NAME: &'static str = {python}; }}"
        );
        return [item, named.parse().unwrap()].into_iter().collect();
    }
    class_impl(arguments, trees)
}

fn class_impl(arguments: TokenStream, mut trees: Vec<TokenTree>) -> TokenStream {
    let name = ident_after(&trees, "impl").expect("an impl is wanted");
    let Some(TokenTree::Group(body)) = trees.pop() else {
        panic!("an impl with a body is wanted");
    };
    let mut slots = vec![];
    let with = arguments.to_string();
    if with.contains("Constructor") {
        slots.push("slots.new = Some(<Self as crate::types::Constructor>::slot_new);".to_owned());
    }
    if with.contains("IterNext") {
        slots.push(
            "slots.iternext.store(Some(<Self as crate::types::IterNext>::slot_iternext));"
                .to_owned(),
        );
        slots.push("slots.iter.store(Some(crate::types::self_iter));".to_owned());
    }
    let mut kept = TokenStream::new();
    for item in tokens::items(body.stream()) {
        match kind_of(&item) {
            Kind::Left => continue,
            Kind::New => slots.push("slots.new = Some(Self::slot_new);".to_owned()),
            Kind::Copy => slots.push("slots.copy = Some(|zelf, vm| Ok(crate::object::payload_of::<Self>(zelf).copy().into_pyobject(vm)));".to_owned()),
            Kind::Plain => {}
        }
        kept.extend(item.without_attributes());
    }
    trees.push(tokens::braced(kept));
    let class = format!(
        "impl crate::object::PyClassImpl for {name} {{ fn fill(slots: &mut crate::object::Slots) {{ {} }} }}",
        slots.concat()
    );
    trees
        .into_iter()
        .chain(class.parse::<TokenStream>().unwrap())
        .collect()
}

enum Kind {
    Left,
    New,
    Copy,
    Plain,
}

fn kind_of(method: &Item) -> Kind {
    let name = ident_after(&method.tokens, "fn");
    let carries = |attribute: &str| method.attributes.iter().any(|a| a.name == attribute);
    if carries("pymethod") || carries("pyclassmethod") {
        return if name.as_deref() == Some("copy") {
            Kind::Copy
        } else {
            Kind::Left
        };
    }
    if carries("pyslot") {
        Kind::New
    } else {
        Kind::Plain
    }
}

#[proc_macro_derive(PyPayload)]
pub fn payload(item: TokenStream) -> TokenStream {
    let trees: Vec<TokenTree> = item.into_iter().collect();
    let name = ident_after(&trees, "struct").expect("a struct is wanted");
    format!(
        "impl crate::PyPayload for {name} {{
            fn class(_: &crate::vm::Context) -> &'static crate::Py<crate::builtins::PyType> {{ crate::object::class_of::<Self>() }}
        }}"
    )
    .parse()
    .unwrap()
}

/// How the arguments of a call become the fields of a struct, as their `pyarg` says.
#[proc_macro_derive(FromArgs, attributes(pyarg))]
pub fn from_args(item: TokenStream) -> TokenStream {
    let trees: Vec<TokenTree> = item.into_iter().collect();
    let name = ident_after(&trees, "struct").expect("a struct is wanted");
    let Some(TokenTree::Group(body)) = trees.last() else {
        panic!("a struct with fields is wanted");
    };
    let mut fields = String::new();
    for field in tokens::fields(body.stream()) {
        let named = field.attributes.iter().any(|a| a.says("named"));
        let optional = field.attributes.iter().any(|a| a.says("optional"));
        let field = field
            .tokens
            .iter()
            .find(|t| is_ident(t))
            .unwrap()
            .to_string();
        let taken = format!("args.take({}, \"{field}\")", !named);
        let bound = if optional { "optional" } else { "required" };
        fields.push_str(&format!("{field}: crate::function::{bound}(vm, {taken})?,"));
    }
    format!(
        "impl crate::function::FromArgs for {name} {{
            fn from_args(vm: &crate::VirtualMachine, args: &mut crate::function::FuncArgs) -> crate::PyResult<Self> {{
                Ok(Self {{ {fields} }})
            }}
        }}"
    )
    .parse()
    .unwrap()
}

/// On the enum of an item and the end: the same as a result.
#[proc_macro_derive(ResultLike)]
pub fn result_like(_: TokenStream) -> TokenStream {
    "impl<T> PyIterReturn<T> {
        pub fn into_result(self) -> Result<T, Option<PyObjectRef>> {
            match self {
                Self::Return(item) => Ok(item),
                Self::StopIteration(value) => Err(value),
            }
        }
    }"
    .parse()
    .unwrap()
}

//! Groups. The original hands out groupers; the k-th stands for the number k.

use super::host::{Callable, Source};
use super::scenario::{Group, Groups};
use super::{number, stopped, Answer, Player, Stopped, UNASKED};
use crate::builtins::PyTuple;
use crate::function::FuncArgs;
use crate::object::{payload_of, PyObjectRef, PyPayload};

impl Player {
    pub(super) fn play_groups(
        &self,
        groups: &Groups,
        calls: &[Group],
        out: &mut String,
    ) -> Result<(), Stopped> {
        let vm = &self.vm;
        let source = Source::of_numbers(&groups.steps, vm);
        let mut args = FuncArgs {
            args: vec![source.clone()],
            ..FuncArgs::default()
        };
        args.args.extend(
            groups
                .modulus
                .map(|rule| Callable::Modulo(rule).into_pyobject(vm)),
        );
        let made = self
            .make("groupby", args)
            .map_err(|raised| stopped(&raised))?;
        let mut groupers: Vec<PyObjectRef> = vec![];
        for call in calls {
            match call {
                Group::Next => self.next_group(&made, &mut groupers, out)?,
                Group::Item(number) => {
                    let grouper = number
                        .checked_sub(1)
                        .and_then(|at| groupers.get(at as usize));
                    match grouper {
                        Some(grouper) => drop(self.step(grouper, out)?),
                        None => out.push_str(UNASKED),
                    }
                }
            }
        }
        out.push_str(&format!("left {}\n", payload_of::<Source>(&source).left()));
        Ok(())
    }

    fn next_group(
        &self,
        groupby: &PyObjectRef,
        groupers: &mut Vec<PyObjectRef>,
        out: &mut String,
    ) -> Result<(), Stopped> {
        match self.next(groupby)? {
            Answer::Item(pair) => {
                let PyTuple(pair) = pair.payload().expect("a group is a pair");
                groupers.push(pair[1].clone());
                out.push_str(&format!("group {} {}\n", number(&pair[0]), groupers.len()));
            }
            other => other.write(out),
        }
        Ok(())
    }
}

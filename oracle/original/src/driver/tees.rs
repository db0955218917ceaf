//! Tees. The original keeps as many items as come, so a step that would draw into a full store is not put to it.

use super::host::Source;
use super::scenario::{Branch, Tee};
use super::{buffer, stopped, Player, Stopped, LARGEST, UNASKED};
use crate::builtins::PyTuple;
use crate::convert::ToPyObject;
use crate::function::FuncArgs;
use crate::object::{payload_of, PyObjectRef};

/// A tee of so many branches is not asked for a copy.
const BRANCHES: usize = 16;

/// A branch, and how many items were answered to it and to what it was copied from.
struct Standing {
    branch: PyObjectRef,
    passed: usize,
}

impl Player {
    pub(super) fn play_tee(
        &self,
        tee: &Tee,
        calls: &[Branch],
        out: &mut String,
    ) -> Result<(), Stopped> {
        if tee.branches.unwrap_or(0).max(tee.store) > LARGEST {
            return Err(Stopped("skipped: too large to run".to_owned()));
        }
        let object = Source::of_numbers(&tee.steps, &self.vm);
        let source: &Source = payload_of(&object);
        let mut branches = self.branches(tee, &object)?;
        for call in calls {
            match call {
                Branch::Step { branch, store } => {
                    let standing = branches
                        .get_mut(*branch as usize)
                        .filter(|_| store.unwrap_or(tee.store) == tee.store);
                    self.step_branch(standing, source.given().len(), tee.store, out)?;
                }
                Branch::Copy { branch } => self.copy_branch(&mut branches, *branch, out)?,
            }
        }
        out.push_str(&format!("left {}\n", source.left()));
        out.push_str(&buffer("store", &source.given(), tee.store as usize));
        out.push('\n');
        Ok(())
    }

    fn branches(&self, tee: &Tee, source: &PyObjectRef) -> Result<Vec<Standing>, Stopped> {
        let mut args = FuncArgs {
            args: vec![source.clone()],
            ..FuncArgs::default()
        };
        args.args
            .extend(tee.branches.map(|branches| branches.to_pyobject(&self.vm)));
        let made = self.make("tee", args).map_err(|raised| stopped(&raised))?;
        let PyTuple(branches) = made.payload().expect("a tee is a tuple of branches");
        Ok(branches
            .iter()
            .map(|branch| Standing {
                branch: branch.clone(),
                passed: 0,
            })
            .collect())
    }

    /// A step of a branch, none where the step is one that only we refuse. So is one that wants to draw into a full store.
    fn step_branch(
        &self,
        standing: Option<&mut Standing>,
        stored: usize,
        store: u64,
        out: &mut String,
    ) -> Result<(), Stopped> {
        match standing {
            Some(standing) if standing.passed < stored || (stored as u64) < store => {
                let answered = out.len();
                self.step(&standing.branch, out)?;
                standing.passed += usize::from(out[answered..].starts_with("item"));
            }
            _ => out.push_str(UNASKED),
        }
        Ok(())
    }

    fn copy_branch(
        &self,
        branches: &mut Vec<Standing>,
        branch: u64,
        out: &mut String,
    ) -> Result<(), Stopped> {
        match branches.get(branch as usize) {
            Some(Standing { branch, passed }) if branches.len() < BRANCHES => {
                let copy = self
                    .vm
                    .call_special_method(branch, "__copy__", ())
                    .map_err(|raised| stopped(&raised))?;
                out.push_str(&format!("branch {}\n", branches.len()));
                branches.push(Standing {
                    branch: copy,
                    passed: *passed,
                });
            }
            _ => out.push_str(UNASKED),
        }
        Ok(())
    }
}

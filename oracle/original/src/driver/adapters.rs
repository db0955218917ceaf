//! Adapters: the making, and calls until the end was said three times.

use super::host::{Callable, Source};
use super::scenario::{Adapter, Joining, Rule, Steps};
use super::{stopped, Player, Stopped};
use crate::convert::ToPyObject;
use crate::function::FuncArgs;
use crate::object::{payload_of, PyObjectRef, PyPayload};

/// What a class is called with: its name and arguments, and the sources among them.
struct Making {
    class: &'static str,
    args: FuncArgs,
    sources: Vec<PyObjectRef>,
}

impl Making {
    fn of(class: &'static str, sources: Vec<PyObjectRef>) -> Making {
        let args = FuncArgs {
            args: sources.clone(),
            ..FuncArgs::default()
        };
        Making {
            class,
            args,
            sources,
        }
    }

    fn with(mut self, name: &'static str, value: PyObjectRef) -> Making {
        self.args.kwargs.push((name, value));
        self
    }
}

impl Player {
    pub(super) fn play_adapter(&self, adapter: &Adapter, out: &mut String) -> Result<(), Stopped> {
        let Some(Making {
            class,
            args,
            sources,
        }) = self.making(adapter)
        else {
            return Err(Stopped("skipped: itertools has one fill".to_owned()));
        };
        let adapter = match self.make(class, args) {
            Ok(adapter) => adapter,
            Err(_) if class == "islice" => {
                out.push_str("refused 5\n");
                return Ok(());
            }
            Err(raised) => return Err(stopped(&raised)),
        };
        for _ in 0..3 {
            while !self.step(&adapter, out)? {}
        }
        out.push_str("left");
        for source in &sources {
            out.push_str(&format!(" {}", payload_of::<Source>(source).left()));
        }
        out.push('\n');
        Ok(())
    }

    /// None where the original has no such making.
    fn making(&self, adapter: &Adapter) -> Option<Making> {
        let vm = &self.vm;
        let source = |steps| Source::of_numbers(steps, vm);
        Some(match adapter {
            Adapter::Takewhile(rule, steps) => self.called("takewhile", *rule, steps),
            Adapter::Dropwhile(rule, steps) => self.called("dropwhile", *rule, steps),
            Adapter::Chain(first, second) => {
                Making::of("chain", vec![source(first), source(second)])
            }
            Adapter::Islice(entries, steps) => {
                let entry = |entry: &Option<u64>| {
                    entry.map_or(vm.ctx.none.clone(), |number| number.to_pyobject(vm))
                };
                let mut making = Making::of("islice", vec![source(steps)]);
                making.args.args.extend(entries.iter().map(entry));
                making
            }
            Adapter::Compress(rule, data, selectors) => Making::of(
                "compress",
                vec![source(data), Source::of_selectors(selectors, *rule, vm)],
            ),
            Adapter::Accumulate(joining, initial, steps) => {
                self.accumulate(*joining, *initial, steps)
            }
            Adapter::Pairwise(steps) => Making::of("pairwise", vec![source(steps)]),
            Adapter::ZipLongest([fill, other], _, _) if fill != other => return None,
            Adapter::ZipLongest([fill, _], left, right) => {
                Making::of("zip_longest", vec![source(left), source(right)])
                    .with("fillvalue", fill.to_pyobject(vm))
            }
        })
    }

    /// A making that is given a predicate and a source.
    fn called(&self, class: &'static str, rule: Rule, steps: &Steps) -> Making {
        let mut making = Making::of(class, vec![Source::of_numbers(steps, &self.vm)]);
        making
            .args
            .args
            .insert(0, Callable::Below(rule).into_pyobject(&self.vm));
        making
    }

    /// Without a function the original adds; a sum from an initial value is called all the same, so that both ways are gone.
    fn accumulate(&self, joining: Joining, initial: Option<u64>, steps: &Steps) -> Making {
        let mut making = Making::of("accumulate", vec![Source::of_numbers(steps, &self.vm)]);
        if matches!(joining, Joining::Max) || initial.is_some() {
            making
                .args
                .args
                .push(Callable::Joined(joining).into_pyobject(&self.vm));
        }
        match initial {
            Some(initial) => making.with("initial", initial.to_pyobject(&self.vm)),
            None => making,
        }
    }
}

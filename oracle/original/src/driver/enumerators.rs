//! Enumerators. The original takes its pools at the making and answers elements, so it is made twice: over the
//! positions, whose rows are the places, and over the elements. Both are stepped together. A listing is of places alone.

use super::scenario::{Enumeration, Lent};
use super::{buffer, number, stopped, Answer, Player, Stopped, LARGEST, UNASKED};
use crate::builtins::{PyList, PyTuple};
use crate::convert::ToPyObject;
use crate::function::FuncArgs;
use crate::object::PyObjectRef;

/// How often no pools are repeated in a run.
const LONGEST: u64 = 1_000_000;

impl Enumeration {
    fn lengths(&self) -> &[u64] {
        match self {
            Enumeration::Product { lengths, .. } => lengths,
            Enumeration::Chosen { n, .. } => std::slice::from_ref(n),
        }
    }

    fn width(&self) -> u128 {
        match self {
            Enumeration::Product { repeat, lengths } => u128::from(*repeat) * lengths.len() as u128,
            Enumeration::Chosen { n, r, .. } => r.unwrap_or(*n).into(),
        }
    }

    fn can_be_run(&self) -> bool {
        let repeats = matches!(self, Enumeration::Product { repeat, .. } if *repeat > LONGEST);
        self.width() <= LARGEST.into()
            && self.lengths().iter().all(|length| *length <= LARGEST)
            && !repeats
    }
}

/// How many rows a listing has at the most, and how many bytes its buffer has for each place and for the last line.
const LISTED_ROWS: usize = 100;
const PLACE_BYTES: u64 = 4;
const LAST_LINE_BYTES: u64 = 5;

impl Player {
    pub(super) fn play_listing(
        &self,
        making: &Enumeration,
        size: Option<u64>,
        out: &mut String,
    ) -> Result<(), Stopped> {
        if !making.can_be_run() {
            return Err(Stopped("skipped: too large to run".to_owned()));
        }
        let row_bytes = (PLACE_BYTES * making.width() as u64).max(1);
        if size.is_some_and(|size| size < LISTED_ROWS as u64 * row_bytes + LAST_LINE_BYTES) {
            out.push_str(UNASKED);
            return Ok(());
        }
        let rows = self.enumerator(making, |_| 0)?;
        let mut lines = vec![];
        while lines.len() < LISTED_ROWS {
            let Some(row) = self.row(&rows)? else { break };
            let places: Vec<String> = row.iter().map(u64::to_string).collect();
            lines.push(places.join(" "));
        }
        let more = lines.len() == LISTED_ROWS && self.row(&rows)?.is_some();
        lines.push(if more { "more" } else { "end" }.to_owned());
        let written: usize = lines.iter().map(|line| line.len() + 1).sum();
        out.push_str(&format!("listed {written}\n"));
        for line in lines {
            out.push_str(&format!("| {line}\n"));
        }
        out.push_str("rest kept\n");
        Ok(())
    }

    pub(super) fn play_enumerator(
        &self,
        making: &Enumeration,
        calls: &[Option<Lent>],
        out: &mut String,
    ) -> Result<(), Stopped> {
        if !making.can_be_run() {
            return Err(Stopped("skipped: too large to run".to_owned()));
        }
        let width = making.width() as u64;
        let size = making.lengths().iter().sum();
        let places = self.enumerator(making, |_| 0)?;
        let elements = self.enumerator(making, |before| 1000 + before)?;
        for lent in calls {
            let lent = lent.unwrap_or(Lent {
                pool: size,
                places: width + 2,
                elements: width + 2,
            });
            if lent.pool != size || lent.places < width || lent.elements < width {
                out.push_str(UNASKED);
                continue;
            }
            let (row, copied) = (self.row(&places)?, self.row(&elements)?);
            out.push_str(if row.is_some() { "row" } else { "end" });
            out.push_str(&buffer(
                " places",
                &row.unwrap_or_default(),
                lent.places as usize,
            ));
            out.push_str(&buffer(
                " elements",
                &copied.unwrap_or_default(),
                lent.elements as usize,
            ));
            out.push('\n');
        }
        Ok(())
    }

    /// An enumerator over pools of consecutive numbers. `first` gives the first of a pool, from how many elements lie before it.
    fn enumerator(
        &self,
        making: &Enumeration,
        first: impl Fn(u64) -> u64,
    ) -> Result<PyObjectRef, Stopped> {
        let vm = &self.vm;
        let mut before = 0;
        let mut args = FuncArgs::default();
        for length in making.lengths() {
            let numbers = first(before)..first(before) + length;
            args.args.push(
                PyList(numbers.map(|number| number.to_pyobject(vm)).collect()).to_pyobject(vm),
            );
            before += length;
        }
        let class = match making {
            Enumeration::Product { repeat, .. } => {
                args.kwargs.push(("repeat", repeat.to_pyobject(vm)));
                "product"
            }
            Enumeration::Chosen { class, r, .. } => {
                args.args
                    .push(r.map_or(vm.ctx.none.clone(), |r| r.to_pyobject(vm)));
                class
            }
        };
        self.make(class, args).map_err(|raised| stopped(&raised))
    }

    /// The numbers of the next row, none at the end.
    fn row(&self, enumerator: &PyObjectRef) -> Result<Option<Vec<u64>>, Stopped> {
        match self.next(enumerator)? {
            Answer::Item(row) => {
                let PyTuple(items) = row.payload().expect("a row is a tuple");
                Ok(Some(items.iter().map(number).collect()))
            }
            Answer::End => Ok(None),
            Answer::Fault(fault) => Err(Stopped(fault.to_string())),
        }
    }
}

//! The text of a scenario, read to its parts. docs/replay.md has the forms.

use std::fmt;
use std::str::FromStr;

/// The line is not of a form.
pub struct Bad;

/// The bytes of the longest buffer that a listing is lent.
const LONGEST_BUFFER: u64 = 32_768;

type Read<T> = Result<T, Bad>;

#[derive(Clone, Copy)]
pub struct Fault {
    pub origin: u8,
    pub cause: u16,
    pub place: u64,
}

impl fmt::Display for Fault {
    fn fmt(&self, f: &mut fmt::Formatter<'_>) -> fmt::Result {
        write!(f, "fault {} {} {}", self.origin, self.cause, self.place)
    }
}

pub type Steps = Vec<Result<u64, Fault>>;

pub enum Scenario {
    /// A source by its name, which the original has not.
    Source(&'static str),
    Adapter(Adapter),
    Enumerator(Enumeration, Vec<Option<Lent>>),
    /// With the size of the buffer, none for the least.
    Listing(Enumeration, Option<u64>),
    Tee(Tee, Vec<Branch>),
    Groups(Groups, Vec<Group>),
}

/// A rule with its number, if it has one, and the item that it has no answer for.
#[derive(Clone, Copy)]
pub struct Rule {
    pub number: u64,
    pub bad: Option<u64>,
}

pub enum Adapter {
    Takewhile(Rule, Steps),
    Dropwhile(Rule, Steps),
    Chain(Steps, Steps),
    Islice(Vec<Option<u64>>, Steps),
    Compress(Rule, Steps, Steps),
    Accumulate(Joining, Option<u64>, Steps),
    Pairwise(Steps),
    ZipLongest([u64; 2], Steps, Steps),
}

#[derive(Clone, Copy)]
pub enum Joining {
    Max,
    Sum,
}

pub enum Enumeration {
    Product {
        repeat: u64,
        lengths: Vec<u64>,
    },
    Chosen {
        class: &'static str,
        n: u64,
        r: Option<u64>,
    },
}

/// The lengths of what a call is lent.
#[derive(Clone, Copy)]
pub struct Lent {
    pub pool: u64,
    pub places: u64,
    pub elements: u64,
}

pub struct Tee {
    pub branches: Option<u64>,
    pub store: u64,
    pub steps: Steps,
}

pub enum Branch {
    Step { branch: u64, store: Option<u64> },
    Copy { branch: u64 },
}

pub struct Groups {
    /// None for the item itself.
    pub modulus: Option<Rule>,
    pub steps: Steps,
}

pub enum Group {
    Next,
    Item(u64),
}

pub fn read(line: &[u8]) -> Read<Scenario> {
    if !line.iter().all(|byte| (0x20..0x7f).contains(byte)) {
        return Err(Bad);
    }
    let text = std::str::from_utf8(line).map_err(|_| Bad)?;
    let parts: Vec<&str> = text.split(" ; ").collect();
    let words: Vec<&str> = parts[0].split(' ').collect();
    match (&words[..], &parts[1..]) {
        (["range", start, stop], []) => {
            number::<u32>(start)?;
            number::<u32>(stop)?;
            Ok(Scenario::Source("ranges"))
        }
        (["records", digits], []) => hexadecimal(digits).map(|()| Scenario::Source("records")),
        (["product" | "combinations" | "replacement" | "permutations", ..], [calls]) => Ok(
            Scenario::Enumerator(enumeration(&words)?, list(calls, ' ', lent)?),
        ),
        (["listing", making @ ..], [size]) => {
            Ok(Scenario::Listing(enumeration(making)?, buffer_size(size)?))
        }
        (["tee", branches, store], [ahead, calls]) => Ok(Scenario::Tee(
            tee(branches, store, ahead)?,
            list(calls, ' ', branch)?,
        )),
        (["groupby", word], [ahead, calls]) => {
            let groups = Groups {
                modulus: key(word)?,
                steps: steps(ahead)?,
            };
            Ok(Scenario::Groups(groups, list(calls, ' ', group)?))
        }
        (head, parts) => adapter(head, parts).map(Scenario::Adapter),
    }
}

fn tee(branches: &str, store: &str, ahead: &str) -> Read<Tee> {
    Ok(Tee {
        branches: optional(branches, "-")?,
        store: number(store)?,
        steps: steps(ahead)?,
    })
}

fn adapter(head: &[&str], parts: &[&str]) -> Read<Adapter> {
    match (head, parts) {
        (["takewhile", word], [ahead]) => Ok(Adapter::Takewhile(
            rule(word, "below", true)?,
            steps(ahead)?,
        )),
        (["dropwhile", word], [ahead]) => Ok(Adapter::Dropwhile(
            rule(word, "below", true)?,
            steps(ahead)?,
        )),
        (["chain"], [first, second]) => Ok(Adapter::Chain(steps(first)?, steps(second)?)),
        (["islice", "-"], [ahead]) => Ok(Adapter::Islice(vec![], steps(ahead)?)),
        (["islice", entries], [ahead]) => Ok(Adapter::Islice(
            list(entries, ',', |word| optional(word, "_"))?,
            steps(ahead)?,
        )),
        (["compress", word], [data, selectors]) => Ok(Adapter::Compress(
            rule(word, "nonzero", false)?,
            steps(data)?,
            steps(selectors)?,
        )),
        (["accumulate", joining, initial], [ahead]) => {
            let joining = match *joining {
                "max" => Joining::Max,
                "sum" => Joining::Sum,
                _ => return Err(Bad),
            };
            Ok(Adapter::Accumulate(
                joining,
                optional(initial, "-")?,
                steps(ahead)?,
            ))
        }
        (["pairwise"], [ahead]) => Ok(Adapter::Pairwise(steps(ahead)?)),
        (["zip_longest", left, right], [first, second]) => Ok(Adapter::ZipLongest(
            [number(left)?, number(right)?],
            steps(first)?,
            steps(second)?,
        )),
        _ => Err(Bad),
    }
}

fn enumeration(words: &[&str]) -> Read<Enumeration> {
    let [name, first, second] = words else {
        return Err(Bad);
    };
    let class = match *name {
        "product" => {
            let lengths = if *second == "-" {
                vec![]
            } else {
                list(second, ',', number)?
            };
            return Ok(Enumeration::Product {
                repeat: number::<u32>(first)?.into(),
                lengths,
            });
        }
        "replacement" => "combinations_with_replacement",
        "combinations" => "combinations",
        "permutations" => "permutations",
        _ => return Err(Bad),
    };
    let r = if class == "permutations" {
        optional(second, "-")?
    } else {
        Some(number(second)?)
    };
    Ok(Enumeration::Chosen {
        class,
        n: number(first)?,
        r,
    })
}

fn number<T: FromStr>(word: &str) -> Read<T> {
    if word.is_empty() || !word.bytes().all(|byte| byte.is_ascii_digit()) {
        return Err(Bad);
    }
    word.parse().map_err(|_| Bad)
}

fn optional(word: &str, absent: &str) -> Read<Option<u64>> {
    if word == absent {
        Ok(None)
    } else {
        number(word).map(Some)
    }
}

fn buffer_size(part: &str) -> Read<Option<u64>> {
    match optional(part, "-")? {
        Some(size) if size > LONGEST_BUFFER => Err(Bad),
        size => Ok(size),
    }
}

fn list<T>(text: &str, between: char, read: impl Fn(&str) -> Read<T>) -> Read<Vec<T>> {
    text.split(between).map(read).collect()
}

fn steps(part: &str) -> Read<Steps> {
    if part == "-" {
        return Ok(vec![]);
    }
    list(part, ' ', |word| match word.strip_prefix('!') {
        Some(fault) => match fault.split(':').collect::<Vec<_>>()[..] {
            [origin, cause, place] => Ok(Err(Fault {
                origin: number(origin)?,
                cause: number(cause)?,
                place: number(place)?,
            })),
            _ => Err(Bad),
        },
        None => number(word).map(Ok),
    })
}

/// A rule of this name, with a number of its own if it is `numbered`, and perhaps with an item that it has no answer for.
fn rule(word: &str, name: &str, numbered: bool) -> Read<Rule> {
    let (first, numbers) = match word.split_once(':') {
        Some((first, rest)) => (first, list(rest, ':', number)?),
        None => (word, vec![]),
    };
    match numbers[..] {
        _ if first != name => Err(Bad),
        [number] if numbered => Ok(Rule { number, bad: None }),
        [number, bad] if numbered => Ok(Rule {
            number,
            bad: Some(bad),
        }),
        [] if !numbered => Ok(Rule {
            number: 0,
            bad: None,
        }),
        [bad] if !numbered => Ok(Rule {
            number: 0,
            bad: Some(bad),
        }),
        _ => Err(Bad),
    }
}

fn key(word: &str) -> Read<Option<Rule>> {
    if word == "self" {
        return Ok(None);
    }
    match rule(word, "mod", true)? {
        Rule { number: 0, .. } => Err(Bad),
        modulus => Ok(Some(modulus)),
    }
}

fn lent(word: &str) -> Read<Option<Lent>> {
    match word.split(':').collect::<Vec<_>>()[..] {
        ["n"] => Ok(None),
        ["n", pool, places, elements] => Ok(Some(Lent {
            pool: number(pool)?,
            places: number(places)?,
            elements: number(elements)?,
        })),
        _ => Err(Bad),
    }
}

fn branch(word: &str) -> Read<Branch> {
    if let Some(branch) = word.strip_prefix('c') {
        return Ok(Branch::Copy {
            branch: number(branch)?,
        });
    }
    match word
        .strip_prefix('s')
        .ok_or(Bad)?
        .split(':')
        .collect::<Vec<_>>()[..]
    {
        [branch] => Ok(Branch::Step {
            branch: number(branch)?,
            store: None,
        }),
        [branch, store] => Ok(Branch::Step {
            branch: number(branch)?,
            store: Some(number(store)?),
        }),
        _ => Err(Bad),
    }
}

fn group(word: &str) -> Read<Group> {
    match word.strip_prefix('i') {
        Some(number_of_group) => number(number_of_group).map(Group::Item),
        None if word == "g" => Ok(Group::Next),
        None => Err(Bad),
    }
}

fn hexadecimal(digits: &str) -> Read<()> {
    let good = digits.len().is_multiple_of(2)
        && !digits.is_empty()
        && digits.bytes().all(|byte| byte.is_ascii_hexdigit());
    if digits == "-" || good {
        Ok(())
    } else {
        Err(Bad)
    }
}

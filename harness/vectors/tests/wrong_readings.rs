//! Every wrong reading of the rules is told by a stored vector, from the right
//! one and from every other.

use reference::Reading;
use std::collections::{HashMap, HashSet};
use std::hash::{DefaultHasher, Hash, Hasher};
use std::slice::from_ref;
use vectors::file::cases::stored_cases;
use vectors::file::owed::owed_reading;
use vectors::file::Case;
use vectors::lines::lines_reading;
use vectors::scenarios::stored_scripts;
use vectors::script::Item;

/// There are at least so many.
const FEWEST: usize = 150;

/// They depart in refusing states that a chip comes to.
const STRICTER: [Reading; 6] = [
    Reading::LockBitsInTurn,
    Reading::LockBitsTogether,
    Reading::SecondCounterUntrimmed,
    Reading::SecondCounterByLength,
    Reading::PulseBoundOneShort,
    Reading::IllegalTimeRefused,
];

#[derive(Clone, Copy, PartialEq, Eq)]
enum Kind {
    Script,
    State,
    File,
}

enum Input {
    Item(Item),
    File(Case),
}

impl Input {
    fn output(&self, reading: Reading) -> Vec<u8> {
        match self {
            Input::Item(item) => lines_reading(from_ref(item), reading),
            Input::File(case) => owed_reading(from_ref(case), reading),
        }
    }
}

/// A stored vector, and what it owes under the right reading.
struct Vector {
    kind: Kind,
    name: String,
    input: Input,
    owed: Vec<u8>,
}

impl Vector {
    fn new(kind: Kind, name: &str, input: Input) -> Vector {
        Vector {
            kind,
            name: name.to_string(),
            owed: input.output(Reading::Right),
            input,
        }
    }

    fn of_item(item: Item) -> Vector {
        let kind = match item {
            Item::PowerOn(_) => Kind::Script,
            Item::State(_) => Kind::State,
            Item::File(_) => Kind::File,
        };
        let name = item.name().to_string();
        Vector::new(kind, &name, Input::Item(item))
    }

    fn of_case(case: Case) -> Vector {
        let name = case.name.clone();
        Vector::new(Kind::File, &name, Input::File(case))
    }

    fn output(&self, reading: Reading) -> Vec<u8> {
        let output = self.input.output(reading);
        let refuses_own = self.kind == Kind::Script && refuses_a_state(&output);
        assert!(
            !refuses_own || STRICTER.contains(&reading),
            "{reading:?} refuses what it made of {}",
            self.name
        );
        output
    }
}

/// A script comes to states of its own: no chip should refuse those, or it
/// would be told by that and not by where it departs.
fn refuses_a_state(output: &[u8]) -> bool {
    output
        .split(|byte| *byte == b'\n')
        .any(|line| line == b"refused 1")
}

/// Random steps and files are left out: what they tell is told by chance.
fn stored_vectors() -> Vec<Vector> {
    let scripts = stored_scripts().into_iter().map(Vector::of_item);
    let files = stored_cases().into_iter().map(Vector::of_case);
    scripts.chain(files).collect()
}

/// What the vectors make of a reading.
struct Told<'a> {
    telling: Vec<&'a Vector>,
    /// Of all outputs: readings that come to the same have the same one.
    print: u64,
}

impl Told<'_> {
    fn by(vectors: &[Vector], reading: Reading) -> Told<'_> {
        let mut hasher = DefaultHasher::new();
        let mut telling = Vec::new();
        for vector in vectors {
            let output = vector.output(reading);
            output.hash(&mut hasher);
            if output != vector.owed {
                telling.push(vector);
            }
        }
        let print = hasher.finish();
        Told { telling, print }
    }

    /// A row of the table.
    fn row(&self, reading: Reading) -> String {
        let count = |kind: Kind| self.telling.iter().filter(|v| v.kind == kind).count();
        let [scripts, states, files] = [Kind::Script, Kind::State, Kind::File].map(count);
        let first = self.telling.first().map_or("-", |vector| &vector.name);
        let name = reading.name();
        format!("{name:26} {scripts:7} {states:7} {files:7}  {first}")
    }
}

#[test]
fn each_is_told() {
    let vectors = stored_vectors();
    let (mut untold, mut alike) = (Vec::new(), Vec::new());
    let mut prints = HashMap::new();
    println!("{:26} scripts  states   files  first", "reading");
    for reading in Reading::WRONG {
        let told = Told::by(&vectors, *reading);
        println!("{}", told.row(*reading));
        if told.telling.is_empty() {
            untold.push(reading.name());
        }
        if let Some(other) = prints.insert(told.print, reading.name()) {
            alike.push(format!("{} and {other}", reading.name()));
        }
    }
    assert!(untold.is_empty(), "not told: {}", untold.join(", "));
    assert!(alike.is_empty(), "not told apart: {}", alike.join(", "));
    println!("{} wrong readings, all told", Reading::WRONG.len());
}

#[test]
fn there_are_many_with_names_of_their_own() {
    let names: HashSet<String> = Reading::WRONG.iter().map(|r| r.name()).collect();
    assert!(!names.contains(&Reading::Right.name()));
    assert_eq!(names.len(), Reading::WRONG.len());
    assert!(names.len() >= FEWEST, "only {}", names.len());
}

//! One round of one load with the library alone: bench/instructions.py counts what it takes.

use crate::load::{self, Load};
use crate::side_by_side::{self, Fields, Sides};
use crate::{GROWTH, Lent, outcome};
use generate::layout::MOST_SLOTS;
use std::process::ExitCode;

/// What a row is about.
enum Row {
    Fed(Load),
    Listed(Sides),
    Newer(Fields),
}

impl Row {
    fn name(&self) -> &str {
        match self {
            Row::Fed(load) => &load.name,
            Row::Listed(sides) => &sides.name,
            Row::Newer(fields) => &fields.name,
        }
    }

    /// One round; answers by how many to divide what it took, and of what these are.
    fn round(&self) -> (usize, &str) {
        match self {
            Row::Fed(load) => {
                outcome::<exhash::Feeder>(load, &mut Lent::new());
                (load.divisor, load.unit)
            }
            Row::Listed(sides) => {
                side_by_side::list_once(sides);
                (1, "listing")
            }
            Row::Newer(fields) => {
                side_by_side::newer_once(fields);
                (fields.fields.len(), "value")
            }
        }
    }
}

/// All rows, in the order of the tables of times.
fn rows() -> impl Iterator<Item = Row> {
    let fed = load::mixes()
        .into_iter()
        .chain(load::gets(GROWTH))
        .chain(load::gets_of_other_names());
    fed.map(Row::Fed)
        .chain(side_by_side::listings().map(Row::Listed))
        .chain([Row::Newer(side_by_side::newer_values())])
        .chain([Row::Fed(load::single_bytes(MOST_SLOTS))])
}

pub fn print_names() {
    for row in rows() {
        println!("{}", row.name());
    }
}

/// Does one round of the row with that name, and prints its divisor and unit.
pub fn run(name: &str) -> ExitCode {
    let Some(row) = rows().find(|row| row.name() == name) else {
        eprintln!("no load has the name {name}");
        return ExitCode::FAILURE;
    };
    let (divisor, unit) = row.round();
    println!("{divisor} {unit}");
    ExitCode::SUCCESS
}

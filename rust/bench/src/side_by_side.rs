//! Times of calls on two full stores.

use crate::load::{KEY_HELD, Named, Order, label, store, store_of};
use crate::{in_turns, print_row};
use generate::Random;
use generate::layout::{HEADER, LEAST_LISTING_BUFFER, MOST_SLOTS, SLOT, VERSION};
use std::hint::black_box;
use std::time::Instant;

const INSTANT: u64 = 1_700_000_000_000;
const CALLS: usize = 20;
const FIELDS: usize = 200;
/// Entries that differ where stores are else alike.
const DIFFERENT: usize = 5;

/// Two stores that are laid side by side, and how many lines their listing has.
pub struct Sides {
    pub name: String,
    first: Vec<u8>,
    second: Vec<u8>,
    lines: usize,
}

/// Fields whose newer value is asked for.
pub struct Fields {
    pub name: String,
    pub fields: Vec<String>,
    sides: Sides,
}

/// A listing call; answers how many bytes it wrote.
type List = fn(&Sides, &mut [u8]) -> usize;
/// The newer value of a field.
type Newer = for<'a> fn(&'a Sides, &str) -> &'a [u8];

/// The same entries, but for a few with another version.
fn alike(slots: usize, fields: Named, order: Order) -> Sides {
    let mut second = store(slots, slots, fields, order);
    let different = second[HEADER..].chunks_mut(SLOT).step_by(slots / DIFFERENT);
    different.for_each(|slot| slot[VERSION.start] += 1);
    let label = label(fields, order);
    Sides {
        name: format!("two stores of {slots} alike but for {DIFFERENT} entries{label}"),
        first: store(slots, slots, fields, Order::Ascending),
        second,
        lines: DIFFERENT,
    }
}

fn nothing_in_common(slots: usize, fields: Named) -> Sides {
    let label = label(fields, Order::Ascending);
    let others = (slots..2 * slots).map(|number| fields.name(number));
    Sides {
        name: format!("two stores of {slots} with nothing in common{label}"),
        first: store(slots, slots, fields, Order::Ascending),
        second: store_of(slots, others),
        lines: 2 * slots,
    }
}

/// The stores whose differences are listed.
pub fn listings() -> [Sides; 5] {
    [
        alike(MOST_SLOTS, Named::Short, Order::Ascending),
        alike(MOST_SLOTS, Named::Short, Order::Shuffled),
        alike(MOST_SLOTS, Named::Long, Order::Shuffled),
        nothing_in_common(MOST_SLOTS, Named::Short),
        nothing_in_common(MOST_SLOTS, Named::Long),
    ]
}

/// Fields of two stores that are alike, in another order.
pub fn newer_values() -> Fields {
    let mut random = Random::new(8);
    let sides = alike(MOST_SLOTS, Named::Short, Order::Shuffled);
    let field = |_| Named::Short.name(random.below(MOST_SLOTS));
    Fields {
        name: format!("newer value, {}", sides.name),
        fields: (0..FIELDS).map(field).collect(),
        sides,
    }
}

fn list_by_library(sides: &Sides, out: &mut [u8]) -> usize {
    let compared = exhash::compare(&sides.first, &sides.second, INSTANT, out);
    compared.expect("nothing is damaged").text().len()
}

fn list_by_model(sides: &Sides, out: &mut [u8]) -> usize {
    let compared = model::compare(&sides.first, &sides.second, INSTANT, out);
    assert_eq!(compared.refusal, 0);
    compared.written
}

fn newer_by_library<'a>(sides: &'a Sides, field: &str) -> &'a [u8] {
    let Sides { first, second, .. } = sides;
    let newer = exhash::newer(
        first,
        second,
        KEY_HELD.as_bytes(),
        field.as_bytes(),
        INSTANT,
    );
    newer.expect("nothing is damaged").expect("it is held").1
}

fn newer_by_model<'a>(sides: &'a Sides, field: &str) -> &'a [u8] {
    let Sides { first, second, .. } = sides;
    model::newer_part(
        first,
        second,
        KEY_HELD.as_bytes(),
        field.as_bytes(),
        INSTANT,
    )
}

/// Nanoseconds of one listing.
fn time_of_list(list: List, sides: &Sides, out: &mut [u8]) -> f64 {
    let start = Instant::now();
    for _ in 0..CALLS {
        black_box(list(black_box(sides), out));
    }
    start.elapsed().as_nanos() as f64 / CALLS as f64
}

/// Nanoseconds of one newer value.
fn time_of_newer(newer: Newer, sides: &Sides, fields: &[String]) -> f64 {
    let start = Instant::now();
    for field in fields {
        black_box(newer(black_box(sides), field));
    }
    start.elapsed().as_nanos() as f64 / fields.len() as f64
}

/// What a call lists: the number of bytes, and the whole output.
fn listed(list: List, sides: &Sides) -> (usize, Vec<u8>) {
    let mut out = vec![0; LEAST_LISTING_BUFFER];
    let written = list(sides, &mut out);
    let line_ends = out[..written].iter().filter(|byte| **byte == b'\n');
    assert_eq!(line_ends.count(), sides.lines, "{}", sides.name);
    (written, out)
}

/// One listing by the library.
pub fn list_once(sides: &Sides) {
    listed(list_by_library, sides);
}

/// The newer value of each field by the library.
pub fn newer_once(fields: &Fields) {
    for field in &fields.fields {
        black_box(newer_by_library(&fields.sides, field));
    }
}

fn print_listing(sides: &Sides) {
    let [ours, models] = [list_by_library, list_by_model].map(|list: List| listed(list, sides));
    assert!(ours == models, "{}", sides.name);
    let times = in_turns(
        &mut vec![0; LEAST_LISTING_BUFFER],
        |out| time_of_list(list_by_library, sides, out),
        |out| time_of_list(list_by_model, sides, out),
    );
    print_row(&sides.name, "listing", &times);
}

fn print_newer(asked: &Fields) {
    let Fields {
        name,
        fields,
        sides,
    } = asked;
    for field in fields {
        assert_eq!(newer_by_library(sides, field), newer_by_model(sides, field));
    }
    let times = in_turns(
        &mut (),
        |_| time_of_newer(newer_by_library, sides, fields),
        |_| time_of_newer(newer_by_model, sides, fields),
    );
    print_row(name, "value", &times);
}

pub fn print_rows() {
    for sides in listings() {
        print_listing(&sides);
    }
    print_newer(&newer_values());
}

//! Times the library against the second implementation: on the fullest drawing, and on trees.

mod timing;
mod trees;

use std::hint::black_box;

use timing::compare;
use zones_tests::drawing::{self, RECORD_BYTES};
use zones_tests::meaning::Drawing;
use zones_tests::random::Random;
use zones_tests::samples::{self, Tables};
use zones_tests::zones::{self, Answer};

/// Calls timed at once.
const CALLS: u32 = 8;

fn main() {
    tables();
    trees::trees();
}

/// Reading the fullest drawing and writing it out.
fn tables() {
    let records = samples::fullest(&mut Random::new(1));
    let bytes = records.concat();
    let tables = samples::tables(&records);
    let [n, areas, corners] = [0, 1, 2].map(|i| tables.plan[i]);
    println!("drawing: {n} records, {areas} areas, {corners} corners");

    let (mut by_library, mut by_second) = (blank(&tables), blank(&tables));
    compare(
        "read",
        CALLS,
        Answer::Accepted(n),
        || {
            let t = black_box(&mut by_library);
            let (xs, ys) = (&mut t.xs, &mut t.ys);
            zones::read(black_box(&bytes), &mut t.plan, &mut t.areas, xs, ys)
        },
        || {
            let t = black_box(&mut by_second);
            let (xs, ys) = (&mut t.xs, &mut t.ys);
            drawing::read(black_box(&bytes), &mut t.plan, &mut t.areas, xs, ys)
        },
    );
    assert!(by_library == tables && by_second == tables);

    let (mut by_library, mut by_second) = (vec![0; bytes.len()], vec![0; bytes.len()]);
    compare(
        "write",
        CALLS,
        Answer::Accepted(n * RECORD_BYTES as u32),
        || {
            let (t, out) = (black_box(&tables), black_box(&mut by_library));
            zones::write(Drawing::of(t), out)
        },
        || {
            let (t, out) = (black_box(&tables), black_box(&mut by_second));
            drawing::write(&t.plan, &t.areas, &t.xs, &t.ys, out)
        },
    );
    assert!(by_library == bytes && by_second == bytes);
}

/// Tables of the same lengths, all zero.
fn blank(tables: &Tables) -> Tables {
    Tables {
        plan: vec![0; tables.plan.len()],
        areas: vec![0; tables.areas.len()],
        xs: vec![0; tables.xs.len()],
        ys: vec![0; tables.ys.len()],
    }
}

//! A short run of the comparison: more is asked of `compare`.

use bench::compare::{compare, Run};
use bench::model::Model;
use bench::tuned::Tuned;

fn run(seed: u64, calls: u64) -> Run {
    Run {
        seed,
        calls,
        session: 0,
    }
}

#[test]
fn the_tuned_version_is_the_model() {
    let mut model = Model::new();
    if let Err(difference) = compare(&mut model, &mut Tuned::new(), &run(35, 30_000)) {
        panic!("{difference}");
    }
    assert!(model.is_told_by_its_list());
}

#[test]
fn what_a_row_keeps_is_enough() {
    if let Err(difference) = compare(&mut Model::new(), &mut Model::by_rows(), &run(36, 10_000)) {
        panic!("{difference}");
    }
}

#[cfg(feature = "library")]
#[test]
fn the_library_is_the_model() {
    let mut library = bench::library::Library::new();
    if let Err(difference) = compare(&mut Model::new(), &mut library, &run(37, 30_000)) {
        panic!("{difference}");
    }
}

//! The expectations worked out by hand, as a test.

use second::vectors;

#[test]
fn every_vector_holds() {
    let tally = vectors::run(vectors::samples_folder());
    assert!(tally.is_well(), "{tally}");
}

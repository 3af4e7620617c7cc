//! The tests of the static library, which stand in `tests/`: each call as C makes it and through
//! `sealed_book::raw`. Those of the Rust API are in the folder `rust` of the repository.

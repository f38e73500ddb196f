//! Runs the examples.

#[cfg(feature = "sha2")]
#[path = "../examples/first.rs"]
mod first;

#[path = "../examples/own_field.rs"]
mod own_field;

#[cfg(feature = "sha2")]
#[test]
fn first_runs() {
    first::main().unwrap();
}

#[test]
fn own_field_runs() {
    own_field::main().unwrap();
}

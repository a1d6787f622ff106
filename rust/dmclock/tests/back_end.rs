//! The example writes what is stored beside it.

#[allow(dead_code)]
#[path = "../examples/back_end.rs"]
mod back_end;

#[test]
fn writes_what_is_stored() {
    let mut out = Vec::new();
    back_end::run(&mut out).unwrap();
    let out = String::from_utf8(out).unwrap();
    assert_eq!(out, include_str!("../examples/back_end.out"));
}

//! The stored script of two offices, `bindings/cases/offices`: every call's number and every lent word, and each view.

mod script;

#[test]
fn every_answer_is_the_models() {
    let script = include_bytes!("../../cases/offices/script");
    let answers = include_str!("../../cases/offices/answers");
    let printed = script::Script::run(script);
    for (i, (ours, theirs)) in printed.lines().zip(answers.lines()).enumerate() {
        assert_eq!(ours, theirs, "line {}", i + 1);
    }
    assert_eq!(printed.len(), answers.len());
}

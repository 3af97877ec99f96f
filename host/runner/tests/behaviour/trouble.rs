//! docs/INTEGRATION.md, "Trouble-shooting": each answer stands there once, by the name that docs/BEHAVIOUR.md has for it.

use crate::page::table;

#[test]
fn each_answer_stands_there_once() {
    let listed: Vec<String> = table("trouble").iter().map(|row| row[0].clone()).collect();
    let answers: Vec<String> = table("answers").iter().map(|row| format!("{} {}", row[0], row[1])).collect();
    assert_eq!(listed, answers);
}

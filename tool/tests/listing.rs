//! `list` prints the bytes that the yardstick prints, for the examples and for generated programs, good and damaged.

mod common;

use std::fs;

use common::{example, examples, generated, tool, tool_with, yardstick, STREAMS};

#[test]
fn examples_have_their_listings() {
    for name in examples() {
        let said = tool(&[&"list".into(), &example(&format!("{name}.csml"))]);
        assert_eq!(said.status, Some(0));
        assert_eq!(said.out, fs::read_to_string(example(&format!("{name}.listing"))).unwrap(), "{name}");
        assert_eq!(said.err, "");
    }
}

#[test]
fn generated_programs_list_alike() {
    let mut refused = 0;
    for source in STREAMS.iter().flat_map(|stream| generated(stream, 12, 300)) {
        let said = tool_with(&["list", "-"], &source);
        let expected = String::from_utf8(yardstick(&["list"], &source)).unwrap();
        assert_eq!(said.out, expected, "{}", String::from_utf8_lossy(&source));
        let is_refused = expected.starts_with("refused");
        assert_eq!((said.status, said.err.is_empty()), (Some(i32::from(is_refused)), !is_refused));
        refused += usize::from(is_refused);
    }
    assert!((100..500).contains(&refused), "{refused} of 600 were refused");
}

#[test]
fn with_procedures_the_same_machines() {
    let names = examples();
    let with: Vec<&str> = names.iter().filter_map(|name| name.strip_suffix("-procedures")).collect();
    assert!(with.len() >= 3);
    for name in with {
        let [one, other] =
            ["", "-procedures"].map(|end| tool(&[&"list".into(), &example(&format!("{name}{end}.csml"))]));
        assert_eq!(one, other, "{name}");
    }
}

#[test]
fn table_files_are_the_yardstick_s() {
    let folder = common::Folder::new();
    for name in examples() {
        let source = example(&format!("{name}.csml"));
        let target = folder.path().join(&name);
        let said = tool(&[&"compile".into(), &source, &"-o".into(), &target]);
        assert_eq!(said.status, Some(0), "{}", said.err);
        assert_eq!(fs::read(&target).unwrap(), yardstick(&["file"], &fs::read(source).unwrap()), "{name}");
    }
}

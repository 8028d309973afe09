//! Colours: on a terminal, without NO_COLOR, and nowhere else. And the manual page is a manual page.

mod common;

use std::process::Command;

use common::{fed, installed, tool_with, top, Folder, TOOL};

/// What the tool sends to a terminal, which `script` plays.
fn on_terminal(set: &[(&str, &str)]) -> String {
    let folder = Folder::new();
    folder.file("p.csml", b"program p; skip");
    let mut command = Command::new("script");
    command.args(["--quiet", "--command", &format!("{TOOL} check p.csml"), "/dev/null"]).current_dir(folder.path());
    command.env_remove("NO_COLOR").env("TERM", "xterm").envs(set.iter().copied());
    String::from_utf8(fed(command, b"").stdout).unwrap()
}

#[test]
fn colours_are_for_terminals() {
    let piped = tool_with(&["check", "-"], b"program p; skip").err;
    assert!(!piped.contains('\x1b'));
    if !installed("script") {
        return;
    }
    let shown = on_terminal(&[]);
    assert!(shown.contains("\x1b[1;31merror[5]\x1b[0m") && shown.contains("refused 5 at 15"), "{shown:?}");
    for set in [("NO_COLOR", "1"), ("NO_COLOR", ""), ("TERM", "dumb")] {
        let shown = on_terminal(&[set]);
        assert!(shown.contains("error[5]: ") && !shown.contains('\x1b'), "{set:?}: {shown:?}");
    }
}

#[test]
fn the_manual_page_has_no_fault() {
    if !installed("groff") {
        return;
    }
    let mut groff = Command::new("groff");
    groff.args(["-man", "-Tascii", "-ww", "-z"]).arg(top().join("docs/windnadel.1"));
    let output = fed(groff, b"");
    assert!(output.status.success() && output.stderr.is_empty(), "{}", String::from_utf8_lossy(&output.stderr));
}

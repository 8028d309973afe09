//! Table files that are broken: what is wrong is told, the block, or the state and input, by number.

mod common;

use common::{example, tool, Folder};

/// CRC-32 of the first 508 bytes, put where it belongs.
fn checked(mut block: Vec<u8>) -> Vec<u8> {
    let mut check = u32::MAX;
    for &byte in &block[..508] {
        check ^= u32::from(byte);
        for _ in 0..8 {
            check = if check & 1 == 1 { check >> 1 ^ 0xEDB8_8320 } else { check >> 1 };
        }
    }
    block[508..].copy_from_slice(&(!check).to_le_bytes());
    block
}

#[test]
fn what_is_broken_is_told() {
    let folder = Folder::new();
    let table = folder.path().join("blink.table");
    let path = table.to_str().unwrap();
    assert_eq!(tool(&["compile", example("blink.csml").to_str().unwrap(), "-o", path]).status, Some(0));
    let sound = std::fs::read(&table).unwrap();
    assert_eq!(checked(sound.clone()), sound);
    for (at, value, words) in [
        (4, 7, "7 inputs, 1 outputs and 2 states: at most 6, 16 and 256, one state at least"),
        (5, 17, "1 inputs, 17 outputs and 2 states: at most 6, 16 and 256, one state at least"),
        (6, 0, "1 inputs, 1 outputs and 0 states: at most 6, 16 and 256, one state at least"),
        (7, 2, "1 inputs, 1 outputs and 514 states: at most 6, 16 and 256, one state at least"),
        (6, 200, "200 states with 1 inputs take 3 blocks, and there are 1"),
        (8, 2, "state 0 has an output past the 1 that there are"),
        (16, 2, "state 1 goes to 2 for input 0, and there are 2 states"),
        (19, 1, "state 1 goes to 256 for input 1, and there are 2 states"),
        (20, 1, "a byte after the table's end is not zero"),
        (507, 1, "a byte after the table's end is not zero"),
    ] {
        let mut broken = sound.clone();
        broken[at] = value;
        std::fs::write(&table, checked(broken)).unwrap();
        let said = tool(&["open", path]);
        assert_eq!(said.status, Some(1));
        assert!(
            said.err.contains(&format!("= found: {words}\n")) && said.err.ends_with("refused 24 at 0\n"),
            "{}",
            said.err
        );
    }
}

#[test]
fn which_block_is_broken_is_told() {
    let folder = Folder::new();
    let table = folder.path().join("mast.table");
    let path = table.to_str().unwrap();
    assert_eq!(tool(&["compile", example("mast.csml").to_str().unwrap(), "-o", path]).status, Some(0));
    let sound = std::fs::read(&table).unwrap();
    for (at, value, words, refused) in [
        (1024, 3, "block 2 (bytes 1024 to 1535) says that it is number 3", "refused 22 at 2"),
        (1026, 31, "block 2 (bytes 1024 to 1535) says that there are 31 blocks, and there are 30", "refused 22 at 2"),
        (14_848, 0, "block 29 (bytes 14848 to 15359) says that it is number 0", "refused 22 at 29"),
        (1535, sound[1535] ^ 1, "block 2 (bytes 1024 to 1535) has changed: its check is ", "refused 23 at 2"),
    ] {
        let mut broken = sound.clone();
        broken[at] = value;
        // The last block's total is wrong too, and never comes first.
        broken[14_850] ^= 1;
        std::fs::write(&table, broken).unwrap();
        let said = tool(&["open", path]);
        assert_eq!(said.status, Some(1));
        assert!(
            said.err.contains(&format!("= found: {words}")) && said.err.ends_with(&format!("{refused}\n")),
            "{}",
            said.err
        );
    }
}

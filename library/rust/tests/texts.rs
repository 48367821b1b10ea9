//! Reports, checks and error messages, over all boards of the folder `boards`.

use pciguest::{check, report, report_json, strerror, Machine};
use std::ffi::OsStr;
use std::fs;
use std::path::{Path, PathBuf};

fn folder() -> PathBuf {
    Path::new(env!("CARGO_MANIFEST_DIR")).join("tests/../../../boards")
}

/// Each board of the folder, and each that is refused: its name and its bytes.
fn boards() -> Vec<(String, Vec<u8>)> {
    let boards = fs::read_dir(folder()).expect("the boards");
    let refused = fs::read_dir(folder().join("refused")).expect("the boards that are refused");
    let mut boards: Vec<_> = boards
        .chain(refused)
        .map(|entry| entry.expect("a file").path())
        .filter(|path| path.extension() == Some(OsStr::new("toml")))
        .map(|path| {
            (path.file_stem().unwrap().to_string_lossy().into_owned(), fs::read(&path).unwrap())
        })
        .collect();
    boards.sort();
    assert!(boards.len() > 20);
    boards
}

#[test]
fn a_check_a_report_and_a_machine_agree() {
    for (name, board) in boards() {
        let check = check(&board).expect("memory");
        let made = Machine::new(&board).err();
        assert_eq!(check.refusal, made, "{name}");
        assert_eq!(report(&board).err(), made, "{name}");
        assert_eq!(report_json(&board).err(), made, "{name}");
        assert_eq!(check.text.starts_with("ok\n"), made.is_none(), "{name}");
        assert!(check.text.ends_with('\n'), "{name}");
    }
}

#[test]
fn a_check_says_what_the_program_says() {
    let refused = folder().join("refused");
    let golden = fs::read_to_string(refused.join("expected.txt")).expect("what the program says");
    let mut compared = 0;
    for section in golden.split("== check ").skip(1) {
        let (name, rest) = section.split_once('\n').expect("a section");
        let wanted = rest.split("fault ").next().expect("its lines");
        // (the file that a section with excerpts names isn't there)
        if let Ok(board) = fs::read(refused.join(name)) {
            let text = check(&board).expect("memory").text;
            assert_eq!(text.replace("board.toml", name), wanted, "{name}");
            compared += 1;
        }
    }
    assert!(compared > 20);
}

#[test]
fn long_texts_come_whole() {
    let board = fs::read(folder().join("largest.toml")).unwrap();
    let json = report_json(&board).unwrap();
    assert!(json.starts_with("{\"bridges\":255,\"endpoints\":769,") && json.ends_with("}\n"));
    let report = report(board).unwrap();
    assert!(report.len() > 4096 && report.starts_with("endpoints 769 bridges 255\n"));
    assert!(report.ends_with('\n'));
}

#[test]
fn numbers_have_words() {
    assert_eq!(strerror(205), "prefetchable memory aperture is too small");
    let last = [905, 906, 907, 908, 909].map(strerror);
    assert_eq!(
        last,
        [
            "not a valid image",
            "image is for other functions",
            "image is for another board",
            "unsupported image version",
            "another call is running on this struct"
        ]
    );
    assert_eq!(strerror(u32::MAX), "");
}

//! Boards of files.

use pciguest::{Board, LoadError, Machine};
use std::error::Error;
use std::path::{Path, PathBuf};

fn board(name: &str) -> PathBuf {
    Path::new(env!("CARGO_MANIFEST_DIR")).join("tests/../../../boards").join(name)
}

#[test]
fn a_board_is_loaded() -> Result<(), Box<dyn Error>> {
    let mut machine = Machine::load(board("main.toml"))?;
    assert_eq!(machine.guest("b")?.index(), 1);
    Board::load(board("main.toml"))?;
    Ok(())
}

#[test]
fn a_refused_board_says_why() {
    let file = board("refused/many_numbers.toml");
    for error in [Machine::load(&file).unwrap_err(), Board::load(&file).unwrap_err()] {
        let LoadError::Refused(refusal, text) = &error else { panic!("{error}") };
        assert_eq!(refusal.number(), 104);
        assert!(text.lines().count() > 5);
        let path = format!("{}:", file.display());
        assert!(text.starts_with(&path) && !text.contains("\nboard.toml:"), "{text}");
        assert_eq!(error.to_string(), format!("number is out of range (104)\n{}", text.trim_end()));
        assert!(error.source().is_some());
    }
    // a board that can't be set up, and stands at reset all the same
    let file = board("refused/io_pool.toml");
    assert!(Machine::load(&file)
        .unwrap_err()
        .to_string()
        .starts_with("I/O aperture is too small (203)\n"));
    assert!(Board::load(&file).is_ok());
}

#[test]
fn a_file_that_is_not_there() {
    for path in [board("nobody.toml"), board("refused")] {
        let error = Machine::load(&path).unwrap_err();
        assert!(matches!(&error, LoadError::File(at, _) if *at == path), "{error}");
        assert!(error.to_string().starts_with(&path.display().to_string()));
    }
}

//! Boards from files, and the full report on one that is refused.

use crate::board::Board;
use crate::error::Error;
use crate::machine::Machine;
use crate::text::check;
use std::fmt;
use std::io;
use std::path::{Path, PathBuf};

/// Why a board can't be made from a file.
#[derive(Debug)]
#[non_exhaustive]
pub enum LoadError {
    /// The file can't be read.
    File(PathBuf, io::Error),
    /// The file or its board is refused. The text is what `pciguest check` reports about it: each problem, with
    /// its line. It is empty if memory runs out.
    Refused(Error, String),
}

impl fmt::Display for LoadError {
    fn fmt(&self, f: &mut fmt::Formatter<'_>) -> fmt::Result {
        match self {
            LoadError::File(path, error) => write!(f, "{}: {error}", path.display()),
            LoadError::Refused(error, text) if text.is_empty() => error.fmt(f),
            LoadError::Refused(error, text) => write!(f, "{error}\n{}", text.trim_end()),
        }
    }
}

impl std::error::Error for LoadError {
    fn source(&self) -> Option<&(dyn std::error::Error + 'static)> {
        match self {
            LoadError::File(_, error) => Some(error),
            LoadError::Refused(error, _) => Some(error),
        }
    }
}

impl Machine {
    /// Returns the machine of the board file at a path.
    ///
    /// # Errors
    ///
    /// Those of [`Machine::new`], with everything that a check reports about the file. The messages contain the
    /// path.
    ///
    /// ```
    /// let error = pciguest::Machine::load("no_such_board.toml").unwrap_err();
    /// assert!(error.to_string().starts_with("no_such_board.toml: "));
    /// ```
    pub fn load(path: impl AsRef<Path>) -> Result<Machine, LoadError> {
        loaded(path.as_ref(), |file| Machine::new(file))
    }
}

impl Board {
    /// Returns the board of the board file at a path, in its reset state.
    ///
    /// # Errors
    ///
    /// Those of [`Board::new`], with everything that a check reports about the file. The messages contain the
    /// path.
    ///
    /// ```
    /// # let path = std::env::temp_dir().join(format!("pciguest_{}.toml", std::process::id()));
    /// # std::fs::write(&path, "[host]\nio = [0x1000, 0xffff]\nmem = 7\n")?;
    /// let error = pciguest::Board::load(&path).unwrap_err();
    /// # std::fs::remove_file(&path)?;
    /// assert!(error.to_string().starts_with(&format!("required key is missing, or value has the wrong form (102)\n{}:3:7: error: host: mem", path.display())));
    /// # Ok::<(), std::io::Error>(())
    /// ```
    pub fn load(path: impl AsRef<Path>) -> Result<Board, LoadError> {
        loaded(path.as_ref(), |file| Board::new(file))
    }
}

/// What a function makes of the bytes of a file.
fn loaded<T>(path: &Path, make: impl FnOnce(&[u8]) -> Result<T, Error>) -> Result<T, LoadError> {
    let file = std::fs::read(path).map_err(|error| LoadError::File(path.to_owned(), error))?;
    make(&file).map_err(|error| LoadError::Refused(error, told_of(&file, path)))
}

/// The result of checking a file, with its path in place of `board.toml`.
fn told_of(file: &[u8], path: &Path) -> String {
    let text = check(file).map(|told| told.text).unwrap_or_default();
    let lines = text.lines().map(|line| match line.strip_prefix("board.toml:") {
        Some(rest) => format!("{}:{rest}\n", path.display()),
        None => format!("{line}\n"),
    });
    lines.collect()
}

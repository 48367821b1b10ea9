//! What is dropped is freed. The test is alone in its process, so that no other one takes memory beside it.

mod shared;

use pciguest::{Board, Error, Machine};
use shared::BOARD;

/// The memory of this process that is resident, in bytes, on pages of 4 KB.
fn resident() -> u64 {
    let told = std::fs::read_to_string("/proc/self/statm").expect("a file of Linux");
    let pages = told.split(' ').nth(1).expect("a second number");
    4096 * pages.parse::<u64>().expect("a number")
}

#[test]
fn what_is_dropped_is_freed() -> Result<(), Error> {
    let kept: Result<Vec<_>, _> = (0..200).map(|_| Machine::new(BOARD)).collect();
    let before = resident();
    drop(kept?);
    for _ in 0..2000 {
        drop(Machine::new(BOARD)?);
        assert!(Machine::new(&BOARD[1..]).is_err());
        drop(Board::new(BOARD)?.set_up()?);
        assert!(Board::new(BOARD)?.into_guests().is_err());
    }
    let grown = resident().saturating_sub(before);
    assert!(grown < 4 << 20, "{grown} bytes more than 200 machines took");
    Ok(())
}

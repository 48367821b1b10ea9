//! Firmware on `boards/main.toml`, by calls. `refusal_rows.rs` has most of what is refused.

mod shared;

use pciguest::{Board, Error, HostAt, Machine, Ranges};
use shared::{number, BOARD};
use std::thread;

const LARGEST: &str = include_str!("../../../boards/largest.toml");
const IO_POOL: &str = include_str!("../../../boards/refused/io_pool.toml");

fn config(bus: u8, device: u8, offset: u64) -> HostAt {
    HostAt::Config { bus, device, function: 0, offset }
}

#[test]
fn firmware_places_a_region() -> Result<(), Error> {
    let mut board = Board::new(BOARD)?;
    assert_eq!(board.read(config(1, 1, 0), 4)?, u32::MAX);
    board.write(config(0, 2, 0x18), 4, 0x0001_0100)?;
    assert_eq!(board.read(config(1, 1, 0), 4)?, 0x0004_1234);
    board.write(config(1, 1, 0x10), 4, 0xc000_0000)?;
    board.write(config(0, 2, 0x24), 4, 0xc0f0_c000)?;
    board.write(config(0, 2, 4), 2, 2)?;
    board.write(config(1, 1, 4), 2, 2)?;
    let place = HostAt::Memory { address: 0xc000_0000 };
    assert_eq!(board.read(place, 4)?, 0xa5a5_a5a5);
    Ok(())
}

#[test]
fn ports_lines_and_numbers_reach_the_same() -> Result<(), Error> {
    let mut board = Board::new(BOARD)?;
    board.write(HostAt::Io { port: 0xcf8 }, 4, 0x8000_1000)?;
    assert_eq!(board.read(HostAt::Io { port: 0xcfc }, 4)?, 0x0002_1234);
    let reply = board.run_line("host cr 00:02.0 0 4\n")?;
    assert_eq!(reply.as_deref(), Some("host: 0x00021234"));
    assert_eq!(board.run_line("# a comment")?, None);
    let reply = board.run_line("a cr 0 0 4")?;
    assert_eq!(reply.as_deref(), Some("?: refused 402 unknown guest"));
    Ok(())
}

#[test]
fn functions_are_told_as_the_registers_stand() -> Result<(), Error> {
    let mut board = Board::new(BOARD)?;
    assert_eq!(board.count()?, 4);
    let at_reset = board.functions()?;
    let found: Vec<bool> = at_reset.iter().map(|told| told.is_found).collect();
    assert_eq!(found, [true, true, false, false]);
    assert!(at_reset.iter().all(|told| told.function.seat.is_none()));
    board.write(config(0, 2, 0x18), 4, 0x0001_0100)?;
    board.write(config(1, 1, 0x10), 4, 0xc000_0000)?;
    board.write(config(1, 1, 4), 2, 2)?;
    let told = board.function(3)?;
    assert_eq!(told.function.path, "2.0/1.0");
    assert_eq!((told.function.bus, told.function.device), (1, 1));
    assert!(told.is_found && told.opens_memory && !told.opens_io);
    let Ranges::Regions(regions) = told.function.ranges else {
        panic!("a bridge");
    };
    assert_eq!(regions[0].map(|region| region.first), Some(0xc000_0000));
    Ok(())
}

#[test]
fn what_is_found_is_told_as_json() -> Result<(), Error> {
    let mut board = Board::new(BOARD)?;
    let (audit, ready) = (board.audit_json()?, board.ready_json()?);
    assert!(audit.starts_with("{\"problems\":[{\"number\":") && audit.ends_with("]}\n"));
    assert!(ready.starts_with("{\"lacks\":[{\"region\":") && ready.ends_with(&audit[1..]));
    let mut largest = Board::new(LARGEST)?;
    let kinds = largest.ready_json()?.matches("\"type\":").count();
    assert_eq!(kinds, largest.ready()?.lacks);
    Ok(())
}

#[test]
fn what_is_found_is_told_with_why() -> Result<(), Error> {
    let mut board = Board::new(BOARD)?;
    board.write(HostAt::Io { port: 0xcf8 }, 4, 0x8000_0840)?;
    assert_eq!(
        board.why_json(config(1, 0, 256))?,
        "{\"found\":{\"missing\":{\"behind\":null,\"bus\":1},\"not_found\":[],\"reached\":null,\"takers\":[]},\
         \"latch\":null}\n"
    );
    assert_eq!(
        board.why_json(HostAt::Io { port: 0xcfe })?,
        "{\"found\":{\"missing\":null,\"not_found\":[\"2.0/1.0\"],\"reached\":\"1.0\",\"takers\":[]},\"latch\":{\
         \"number\":{\"bus\":0,\"device\":1,\"function\":0},\"offset\":66,\"type\":\"selected\"}}\n"
    );
    Ok(())
}

#[test]
fn set_up_takes_a_board_at_reset() -> Result<(), Error> {
    let mut board = Board::new(BOARD)?;
    assert_eq!(number(board.write(config(0, 1, 5), 2, 2)), 301);
    let (mut machine, mut other) = (board.set_up()?, Machine::new(BOARD)?);
    for offset in (0..256).step_by(4) {
        let at = config(1, 1, offset);
        assert_eq!(machine.host_read(at, 4)?, other.host_read(at, 4)?);
    }
    assert_eq!(board.read(config(1, 1, 0), 4)?, u32::MAX);
    board.write(config(0, 1, 4), 2, 0)?;
    let refused = board.set_up().err().expect("a refusal");
    assert!(matches!(refused, Error::NotAtReset(_)));
    assert_eq!(refused.to_string(), "board has been written to since reset (904)");
    Ok(())
}

/// A board that this program set up by hand: the bridge is numbered and forwards what is behind it, each region has a
/// place, and each function but the last answers there.
fn set_up_by_hand() -> Result<Board, Error> {
    let mut board = Board::new(BOARD)?;
    for (bus, device, offset, value) in [
        (0, 1, 0x10, 0x1000),
        (0, 1, 0x14, 0xd000_0000),
        (0, 1, 4, 3),
        (0, 2, 0x18, 0x0001_0100),
        (0, 2, 0x1c, 0x3030),
        (0, 2, 0x20, 0xd110_d110),
        (0, 2, 0x24, 0xd2f0_d200),
        (0, 2, 4, 3),
        (1, 0, 0x10, 0xd110_0000),
        (1, 0, 0x14, 0x3010),
        (1, 0, 4, 3),
        (1, 1, 0x10, 0xd200_0000),
    ] {
        board.write(config(bus, device, offset), 4, value)?;
    }
    Ok(board)
}

#[test]
fn guests_over_a_board_of_ones_own() -> Result<(), Error> {
    let refused = Board::new(BOARD)?.into_guests().expect_err("nothing behind the bridge is found");
    assert_eq!(refused.to_string(), "audit found a problem in the registers (207)");
    let refused = set_up_by_hand()?.into_guests().expect_err("a closed region");
    assert!(matches!(refused.error, Error::ClosedRegion(_)));
    let mut board = refused.board;
    board.write(config(1, 1, 4), 2, 2)?;
    let (mut machine, mut other) = (board.into_guests()?, Machine::new(BOARD)?);
    for line in [
        "a cr 0 0x14 4",
        "a cw 1 4 2 2",
        "a mr 0 4",
        "b cr 0 4 4",
        "host move a 0 b 3",
        "b cr 3 0 4",
    ] {
        assert_eq!(machine.run_line(line)?, other.run_line(line)?);
    }
    assert_eq!(machine.host_read(config(1, 1, 0x10), 4)?, 0xd200_000c);
    // the same guests over the same board, but not set up alike
    let (held, image) = (machine.save_all()?, other.save_all()?);
    assert!(matches!(machine.load_all(image), Err(Error::OtherBoard(_))));
    assert_eq!(machine.save_all()?, held);
    Ok(())
}

#[test]
fn a_line_hands_the_board_over() -> Result<(), Error> {
    let mut board = set_up_by_hand()?;
    let reply = board.run_line("host guests\n")?;
    let wanted = "closed: 2.0/1.0 bar0\nhost: refused 206 closed region";
    assert_eq!(reply.as_deref(), Some(wanted));
    board.write(config(1, 1, 4), 2, 2)?;
    assert_eq!(board.run_line("host guests")?.as_deref(), Some("host: ok"));
    // its lines are a script's now, and firmware's calls find no board
    let reply = board.run_line("a cr 0 0 4")?;
    assert_eq!(reply.as_deref(), Some("a: 0x00011234"));
    let reply = board.run_line("host audit")?;
    assert_eq!(reply.as_deref(), Some("host: refused 401 bad line"));
    assert_eq!(number(board.read(config(0, 1, 0), 4)), 901);
    assert_eq!(number(board.write(config(0, 1, 4), 2, 0)), 901);
    assert_eq!(number(board.audit()), 901);
    assert_eq!(number(board.set_up()), 901);
    // the machine is as its guests left it
    assert_eq!(board.run_line("a cw 1 4 2 2")?.as_deref(), Some("a: ok"));
    let mut machine = board.into_guests()?;
    assert_eq!(machine.run_line("a cr 1 4 2")?.as_deref(), Some("a: 0x0002"));
    Ok(())
}

#[test]
fn a_long_reply_comes_whole() -> Result<(), Error> {
    let mut board = Board::new(BOARD)?;
    let wanted = board.audit()?.text;
    assert!(wanted.len() > 48);
    assert_eq!(board.run_line("host audit")?.as_deref(), wanted.strip_suffix('\n'));
    let mut largest = Board::new(LARGEST)?;
    let wanted = largest.audit()?.text;
    assert_eq!(largest.run_line("host audit")?.as_deref(), wanted.strip_suffix('\n'));
    board.write(config(0, 2, 0x18), 4, 0x0001_0100)?;
    assert_eq!(board.run_line("host audit")?.as_deref(), Some("audit: ok"));
    Ok(())
}

#[test]
fn an_audit_tells_what_is_wrong() -> Result<(), Error> {
    let mut board = Board::new(BOARD)?;
    let audit = board.audit()?;
    assert!(audit.text.ends_with("\naudit: 2 problems\n"));
    assert_eq!(audit.problems, 2);
    board.write(config(0, 2, 0x18), 4, 0x0001_0100)?;
    assert_eq!(board.audit()?.text, "audit: ok\n");
    let mut largest = Board::new(LARGEST)?;
    let audit = largest.audit()?;
    assert!(audit.text.len() > 4096 && audit.text.lines().count() == audit.problems + 1);
    Ok(())
}

#[test]
fn what_is_refused() -> Result<(), Error> {
    assert_eq!(number(Board::new("x")), 101);
    assert_eq!(number(Board::new(IO_POOL)?.set_up()), 203);
    Ok(())
}

#[test]
fn a_board_goes_to_another_thread() -> Result<(), Error> {
    let mut board = Board::new(BOARD)?;
    let read = thread::spawn(move || board.read(config(0, 1, 0), 4));
    assert_eq!(read.join().expect("no panic")?, 0x0001_1234);
    Ok(())
}

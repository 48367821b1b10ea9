//! The calls of `tests/library/refusals.txt`, which are also made in C and Python.

mod shared;

use pciguest::{At, Board, Error, Guest, HostAt, Machine, Part, Places};
use shared::BOARD;

const ROWS: &str = include_str!("../../../tests/library/refusals.txt");

/// The arguments of a call.
struct Row<'a>(Vec<&'a str>);

impl Row<'_> {
    fn number(&self, nth: usize) -> u64 {
        let word = self.0[nth];
        let number = match word.strip_prefix("0x") {
            Some(digits) => u64::from_str_radix(digits, 16),
            None => word.parse(),
        };
        number.unwrap_or_else(|_| panic!("{word}: not a number"))
    }

    fn small(&self, nth: usize) -> u8 {
        self.number(nth) as u8
    }

    fn short(&self, nth: usize) -> u32 {
        self.number(nth) as u32
    }

    fn text(&self) -> &str {
        self.0[0].trim_matches('-')
    }

    fn guest(&self, nth: usize) -> Guest {
        Guest::of_index(self.number(nth) as usize)
    }

    /// Where a guest's access goes, from the row's second to fourth argument.
    fn at(&self) -> At {
        let place = self.number(3);
        match self.0[1] {
            "config" => At::Config { slot: self.number(2), offset: place },
            "io" => At::Io { port: place },
            _ => At::Memory { address: place },
        }
    }

    /// Where an access by the host or by firmware goes, from the row's first five arguments.
    fn host_at(&self) -> HostAt {
        let place = self.number(4);
        match self.0[0] {
            "config" => HostAt::Config {
                bus: self.small(1),
                device: self.small(2),
                function: self.small(3),
                offset: place,
            },
            "io" => HostAt::Io { port: place },
            _ => HostAt::Memory { address: place },
        }
    }

    fn part(&self) -> Part {
        match self.0[2] {
            "configuration" => Part::Config,
            _ => Part::Region(self.small(2)),
        }
    }
}

/// Makes the call of a row.
fn asked(call: &str, r: &Row, m: &mut Machine, b: &mut Board) -> Result<(), Error> {
    let (wide, short) = (|nth| r.number(nth), |nth| r.short(nth));
    match call {
        "read" => m.read(r.guest(0), r.at(), short(4)).map(drop),
        "write" => m.write(r.guest(0), r.at(), short(4), short(5)),
        "read_wide" => m.read_wide(r.guest(0), r.at(), short(4)).map(drop),
        "write_wide" => m.write_wide(r.guest(0), r.at(), short(4), wide(5)),
        "region_read" => {
            m.region_read(r.guest(0), wide(1), r.small(2), wide(3), short(4)).map(drop)
        }
        "region_write" => {
            m.region_write(r.guest(0), wide(1), r.small(2), wide(3), short(4), wide(5))
        }
        "raise" => m.raise(r.guest(0), wide(1), r.part(), wide(3), r.small(4)),
        "device_read_wide" => {
            m.device_read_wide(r.guest(0), wide(1), r.part(), wide(3), short(4)).map(drop)
        }
        "device_write_wide" => {
            m.device_write_wide(r.guest(0), wide(1), r.part(), wide(3), short(4), wide(5))
        }
        "region" => m.region(r.guest(0), wide(1), short(2)).map(drop),
        "changed" => m.changed(r.guest(0)).map(drop),
        "moved" => m.moved(r.guest(0), &mut Places::new()).map(drop),
        "locate" => m.locate(r.guest(0), r.at()).map(drop),
        "why" => m.why(r.guest(0), r.at()).map(drop),
        "why_json" => m.why_json(r.guest(0), r.at()).map(drop),
        "function" => m.function(wide(0) as usize).map(drop),
        "slot" => m.slot_function(r.guest(0), wide(1)).map(drop),
        "bus_master" => m.bus_master(r.guest(0), wide(1)).map(drop),
        "msix_message" => m.msix_message(r.guest(0), wide(1), short(2)).map(drop),
        "guest" => m.guest(r.text()).map(drop),
        "guest_name" => m.guest_name(r.guest(0)).map(drop),
        "move" => m.move_function(r.guest(0), wide(1), r.guest(2), wide(3)),
        "reset" => m.reset(r.guest(0), wide(1)),
        "reset_guest" => m.reset_guest(r.guest(0)),
        "give" => m.give(r.text(), r.guest(1), wide(2)),
        "take" => m.take(r.guest(0), wide(1)),
        "save" => m.save(r.guest(0)).map(drop),
        "load" => m.load_image(r.guest(0), b""),
        "load_all" => m.load_all(b""),
        "image_fault" => m.image_fault(r.guest(0), b"").map(drop),
        "host_read" => m.host_read(r.host_at(), short(5)).map(drop),
        "board_read" => b.read(r.host_at(), short(5)).map(drop),
        "board_write" => b.write(r.host_at(), short(5), short(6)),
        "board_function" => b.function(wide(0) as usize).map(drop),
        "board_why_json" => b.why_json(r.host_at()).map(drop),
        _ => panic!("{call}: no such call"),
    }
}

#[test]
fn each_row() -> Result<(), Error> {
    let (mut machine, mut board) = (Machine::new(BOARD)?, Board::new(BOARD)?);
    let before = machine.save_all()?;
    let mut count = 0;
    for line in ROWS.lines().filter(|line| !line.starts_with('#')) {
        let mut words = line.split_whitespace();
        let (Some(number), Some(call)) = (words.next(), words.next()) else {
            continue;
        };
        let answer = asked(call, &Row(words.collect()), &mut machine, &mut board);
        let answer = answer.err().map_or(0, |error| error.number());
        assert_eq!(answer.to_string(), number, "{line}");
        count += 1;
    }
    assert!(count > 150);
    // nothing has changed, and the board is at reset
    assert_eq!(machine.save_all()?, before);
    for guest in 0..2 {
        assert_eq!(machine.changed(Guest::of_index(guest))?, 0);
    }
    board.set_up().map(drop)
}

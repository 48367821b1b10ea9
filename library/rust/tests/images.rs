//! Guests that are saved, loaded and put to reset, and whole machines. Each script of the folder `boards` goes on over another
//! board, or in another machine over an equal one, wherever it is cut.

mod shared;

use pciguest::{Error, Guest, Machine};
use shared::{number, start, BOARD};

const SERVER: &str = include_str!("../../../boards/server.toml");
const SCRIPTS: [(&str, &str); 7] = [
    (BOARD, include_str!("../../../boards/guest.script")),
    (BOARD, include_str!("../../../boards/two_guests.script")),
    (BOARD, include_str!("../../../boards/raise.script")),
    (BOARD, include_str!("../../../boards/host.script")),
    (BOARD, include_str!("../../../boards/ports.script")),
    (BOARD, include_str!("../../../boards/move.script")),
    (SERVER, include_str!("../../../boards/server.script")),
];
/// What stands beside the functions of a board that are moved behind two bridges.
const BESIDE: &str = include_str!("../../../tests/library/beside.toml");

/// Where two images of one guest differ.
fn differences(one: &[u8], other: &[u8]) -> Vec<usize> {
    assert_eq!(one.len(), other.len());
    (0..one.len()).filter(|&at| one[at] != other[at]).collect()
}

#[test]
fn an_image_tells_what_its_guest_holds() -> Result<(), Error> {
    let (mut machine, a, b) = start(BOARD)?;
    let (first, other) = (machine.save(a)?, machine.save(b)?);
    assert_eq!(machine.image_size(a)?, first.len());
    machine.run_line("a cw 0 4 2 2")?;
    let opened = machine.save(a)?;
    let changed = differences(&first, &opened);
    assert_eq!(changed.len(), 1); // the low byte of Command
    assert_eq!((first[changed[0]], opened[changed[0]]), (0, 2));
    machine.run_line("a iw 0xcf8 4 0x80000800")?;
    assert_eq!(differences(&opened, &machine.save(a)?), [9, 11]); // the latch
    assert_eq!(machine.save(b)?, other);
    Ok(())
}

#[test]
fn a_guest_is_put_to_reset() -> Result<(), Error> {
    let (mut machine, a, b) = start(BOARD)?;
    let first = machine.save(a)?;
    for line in ["a cw 0 4 2 2", "a raise 1 cfg 7 0x80", "b cw 0 4 2 2"] {
        let reply = machine.run_line(line)?.expect("a reply");
        assert!(reply.ends_with(": ok"), "{reply}");
    }
    let other = machine.save(b)?;
    let count = machine.changed(a)?;
    machine.reset_guest(a)?;
    assert_eq!(machine.save(a)?, first);
    assert_eq!(machine.save(b)?, other);
    assert_eq!(machine.changed(a)?, count + 1);
    Ok(())
}

#[test]
fn an_image_is_as_long_as_its_functions_are_many() -> Result<(), Error> {
    let (mut machine, a, b) = start(BOARD)?;
    let (one, other) = (machine.image_size(a)?, machine.image_size(b)?);
    machine.move_function(a, 1, b, 9)?;
    assert_eq!(machine.image_size(a)? + machine.image_size(b)?, one + other);
    assert!(machine.image_size(a)? < one);
    machine.take(a, 0)?;
    assert_eq!(machine.image_size(a)?, 12 + 32);
    Ok(())
}

#[test]
fn a_guest_that_is_not_there_has_no_image() -> Result<(), Error> {
    let mut machine = Machine::new(BOARD)?;
    for nobody in [Guest::of_index(2), Guest::of_index(usize::MAX)] {
        assert_eq!(number(machine.image_size(nobody)), 902);
        assert_eq!(number(machine.save(nobody)), 902);
        assert_eq!(number(machine.reset_guest(nobody)), 902);
    }
    Ok(())
}

// ---- loaded

/// The same functions and guests behind two more bridges, at other addresses, and beside others.
fn elsewhere(board: &str) -> String {
    let is_path =
        |text: &str| text.contains('.') && text.starts_with(|it: char| it.is_ascii_digit());
    let parts = board.split('"').enumerate().map(|(at, part)| {
        if at % 2 == 1 && is_path(part) {
            format!("6.0/3.0/{part}")
        } else {
            part.to_owned()
        }
    });
    let moved = parts.collect::<Vec<_>>().join("\"");
    let placed = moved
        .replace("io = [0x1000", "io = [0x3000")
        .replace("mem = [0xc0000000", "mem = [0x80000000");
    assert!(placed != moved && moved != board);
    placed + BESIDE
}

fn is_by_a_guest(line: &str) -> bool {
    !line.starts_with("host ") || line.starts_with("host move ")
}

/// The replies to lines, without what the host reads of the board.
fn replies(machine: &mut Machine, lines: &[&str]) -> Result<Vec<String>, Error> {
    let mut replies = Vec::new();
    for line in lines.iter().filter(|line| is_by_a_guest(line)) {
        replies.extend(machine.run_line(line)?);
    }
    Ok(replies)
}

/// Another board, after the moves of these lines and after events of its own.
fn arranged(board: &str, lines: &[&str]) -> Result<Machine, Error> {
    let mut machine = Machine::new(elsewhere(board))?;
    for line in lines.iter().filter(|line| line.starts_with("host move ")) {
        machine.run_line(line)?;
    }
    for guest in machine.guests()? {
        for line in [
            "cw 0 4 2 0xffff",
            "cw 0 0x10 4 0xfffffff0",
            "raise 0 cfg 7 0xff",
            "iw 0xcf8 4 0xffffffff",
        ] {
            machine.run_line(format!("{guest} {line}"))?;
        }
    }
    Ok(machine)
}

#[test]
fn guests_go_on_over_another_board() -> Result<(), Error> {
    for (board, script) in SCRIPTS {
        let lines: Vec<_> = script.lines().collect();
        for cut in 0..=lines.len() {
            let (first, rest) = lines.split_at(cut);
            let mut here = Machine::new(board)?;
            replies(&mut here, first)?;
            let mut there = arranged(board, first)?;
            for (index, name) in here.guests()?.iter().enumerate() {
                let (guest, image) = (Guest::of_index(index), here.save(Guest::of_index(index))?);
                assert_eq!(&there.guest_name(guest)?, name);
                there.load_image(guest, &image)?;
                assert_eq!(there.save(guest)?, image, "{name} at line {cut}");
            }
            let wanted = replies(&mut here, rest)?;
            assert_eq!(replies(&mut there, rest)?, wanted, "from line {cut} of\n{script}");
        }
    }
    Ok(())
}

#[test]
fn a_guest_is_loaded_where_it_was_saved() -> Result<(), Error> {
    let (mut machine, a, _) = start(BOARD)?;
    replies(
        &mut machine,
        &["a cw 0 0x14 4 0xe0000000", "a cw 0 4 2 2", "a mw 0xe0000010 4 0x12345678"],
    )?;
    let image = machine.save(a)?;
    let count = machine.changed(a)?;
    machine.reset_guest(a)?;
    machine.load_image(a, &image)?;
    assert_eq!(machine.save(a)?, image);
    assert_eq!(machine.changed(a)?, count + 2);
    assert_eq!(replies(&mut machine, &["a mr 0xe0000010 4"])?, ["a: 0x12345678"]);
    Ok(())
}

#[test]
fn bytes_that_are_no_image_for_a_guest_are_refused() -> Result<(), Error> {
    let (mut machine, a, b) = start(BOARD)?;
    let (image, other) = (machine.save(a)?, machine.save(b)?);
    machine.run_line("a cw 0 4 2 2")?;
    let held = machine.save(a)?;
    let longer = [&image[..], &[0]].concat();
    for bytes in [&[][..], b"PCIG", &image[..image.len() - 1], &longer] {
        assert!(matches!(machine.load_image(a, bytes), Err(Error::Image(_))));
    }
    assert!(matches!(machine.load_image(a, &other), Err(Error::OtherFunctions(_))));
    for at in 0..8 {
        let mut changed = image.clone();
        changed[at] ^= 0x10;
        assert_eq!(number(machine.load_image(a, changed)), if at < 4 { 905 } else { 908 });
    }
    assert_eq!(machine.save(a)?, held);
    let mut stops = |bytes: &[u8]| -> Result<_, Error> {
        let fault = machine.image_fault(a, bytes)?;
        Ok(fault.map(|it| (it.slot, it.offset, it.field)))
    };
    let at = |slot, offset, field: &str| Some((slot, offset, field.to_owned()));
    assert_eq!(stops(&other)?, at(Some(0), 15, "device"));
    assert_eq!(stops(&image)?, None);
    assert_eq!(stops(&held)?, None);
    assert_eq!(stops(b"PCIG\x02")?, at(None, 4, "the version"));
    for bytes in [&b"PCIG"[..], &image[..image.len() - 1], &longer] {
        assert_eq!(stops(bytes)?, None); // by 905
    }
    machine.move_function(a, 0, a, 5)?;
    assert_eq!(number(machine.load_image(a, &image)), 906);
    let fault = machine.image_fault(a, &image)?.unwrap();
    assert_eq!(fault.to_string(), "slot 0: whether it is filled");
    assert_eq!(number(machine.image_fault(Guest::of_index(2), &image)), 902);
    assert_eq!(number(machine.load_image(Guest::of_index(2), &image)), 902);
    Ok(())
}

// ---- whole machines

/// The replies to all lines, the host's among them.
fn all_replies(machine: &mut Machine, lines: &[&str]) -> Result<Vec<Option<String>>, Error> {
    lines.iter().map(|line| machine.run_line(line)).collect()
}

#[test]
fn machines_go_on_over_an_equal_board() -> Result<(), Error> {
    for (board, script) in SCRIPTS {
        let lines: Vec<_> = script.lines().collect();
        for cut in 0..=lines.len() {
            let (first, rest) = lines.split_at(cut);
            let (mut here, mut there) = (Machine::new(board)?, Machine::new(board)?);
            all_replies(&mut here, first)?;
            let guest = Guest::of_index(0);
            there.move_function(guest, 0, guest, 31)?;
            let image = here.save_all()?;
            assert_eq!(here.image_size_all()?, image.len());
            there.load_all(&image)?;
            assert_eq!(there.save_all()?, image, "line {cut}");
            let wanted = all_replies(&mut here, rest)?;
            assert_eq!(all_replies(&mut there, rest)?, wanted, "from line {cut} of\n{script}");
        }
    }
    Ok(())
}

#[test]
fn functions_come_back_to_their_slots() -> Result<(), Error> {
    let (mut machine, a, b) = start(BOARD)?;
    machine.move_function(a, 1, b, 9)?;
    machine.run_line("b cw 9 4 2 2")?;
    let (image, counts) = (machine.save_all()?, [machine.changed(a)?, machine.changed(b)?]);
    machine.take(b, 9)?;
    machine.move_function(b, 0, a, 1)?;
    assert!(machine.image_size_all()? < image.len());
    machine.load_all(&image)?;
    assert_eq!(machine.save_all()?, image);
    assert_eq!(machine.slot_function(b, 9)?.path, "2.0/1.0");
    assert_eq!(machine.slot_function(b, 0)?.path, "2.0/0.0");
    assert_eq!(number(machine.slot_function(a, 1)), 601);
    assert_eq!(replies(&mut machine, &["b cr 9 4 2"])?, ["b: 0x0002"]);
    assert!(machine.changed(a)? > counts[0] && machine.changed(b)? > counts[1]);
    Ok(())
}

#[test]
fn bytes_that_are_no_image_for_a_machine_are_refused() -> Result<(), Error> {
    let (mut machine, a, b) = start(BOARD)?;
    let (image, own) = (machine.save_all()?, machine.save(a)?);
    machine.move_function(a, 0, b, 7)?;
    let held = machine.save_all()?;
    let longer = [&image[..], &[0]].concat();
    for bytes in [&[][..], b"PCIM", &image[..image.len() - 1], &longer, &own] {
        assert!(matches!(machine.load_all(bytes), Err(Error::Image(_))));
    }
    assert_eq!(number(machine.load_image(a, &image)), 905);
    let seat = b"\x01a\x01b\x031.0"; // the guests' names, and the path of the function in slot 0
    let at = image.windows(seat.len()).position(|it| it == seat);
    for device in [b'9', b'2'] {
        let mut elsewhere = image.clone();
        elsewhere[at.expect("the first guest") + 5] = device; // nothing stands there, or a bridge
        assert!(matches!(machine.load_all(elsewhere), Err(Error::OtherFunctions(_))));
    }
    assert_eq!(machine.save_all()?, held);
    let others = [
        BOARD.replace("\"b\"", "\"c\""),
        BOARD.replace("0x0003", "0x0005"),
        BOARD.replace("mem = [0xc", "mem = [0xb"),
    ];
    for board in others {
        let mut other = Machine::new(board)?;
        let held = other.save_all()?;
        assert!(matches!(other.load_all(&image), Err(Error::OtherBoard(_))));
        assert_eq!(other.save_all()?, held);
    }
    Ok(())
}

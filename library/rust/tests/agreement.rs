//! Random accesses, each asked by a call of its own and, on a second machine, by a line of a script.

mod shared;

use pciguest::{At, Error, Guest, HostAt, Machine, Part};
use shared::BOARD;

const NAMES: [&str; 2] = ["a", "b"];

/// xorshift64
struct Random(u64);

impl Random {
    fn any(&mut self) -> u64 {
        self.0 ^= self.0 << 13;
        self.0 ^= self.0 >> 7;
        self.0 ^= self.0 << 17;
        self.0
    }

    fn below(&mut self, n: u64) -> u64 {
        self.any() % n
    }

    fn of<T: Copy>(&mut self, all: &[T]) -> T {
        all[self.below(all.len() as u64) as usize]
    }

    /// A slot; an offset, a port or an address at which something is often to be found; and its space.
    fn at(&mut self) -> At {
        match self.below(3) {
            0 => At::Config {
                slot: self.of(&[0, 0, 0, 0, 1, 1, 2, 32]),
                offset: self.of(&[0, 4, 4, 8, 0x10, 0x14, 0x3c, 0x40, 6, 7, 256]),
            },
            1 => At::Io {
                port: self.of(&[0xcf8, 0xcf8, 0xcf8, 0xcfc, 0xcfc, 0xcfc, 0xcfe, 0x1000, 1 << 32]),
            },
            _ => At::Memory {
                address: 0xc000_0000
                    + (self.below(2) << 20)
                    + self.of(&[0, 4, 8, 12, 16, 32, 60, 64, 5, 6]),
            },
        }
    }

    fn value(&mut self) -> u32 {
        match self.below(4) {
            0 => 0x8000_0000 | (self.below(3) << 11 | self.below(16) << 2) as u32,
            1 => 0xc000_0000 + (self.below(2) << 20) as u32,
            2 => self.of(&[1, 2, 3, 7]),
            _ => self.any() as u32,
        }
    }
}

/// The reply of a call, as a run writes it.
fn reply(who: &str, answer: Result<Option<u32>, Error>, width: u32) -> String {
    match answer {
        Ok(Some(value)) => format!("{who}: 0x{value:0digits$x}", digits = 2 * width as usize),
        Ok(None) => format!("{who}: ok"),
        Err(error) => {
            let text = match error.number() {
                301 => "misaligned",
                302 => "width",
                303 => "range",
                601 => "empty slot",
                _ => "slot taken",
            };
            format!("{who}: refused {} {text}", error.number())
        }
    }
}

/// The letter of the space and the place, as a line has them.
fn words(at: At) -> (char, String) {
    match at {
        At::Config { slot, offset } => ('c', format!("{slot} {offset}")),
        At::Io { port } => ('i', format!("{port:#x}")),
        At::Memory { address } => ('m', format!("{address:#x}")),
    }
}

/// An access of a guest: its line, and the reply of the call.
fn access(random: &mut Random, machine: &mut Machine) -> (String, String) {
    let index = random.below(2) as usize;
    let (name, guest) = (NAMES[index], Guest::of_index(index));
    let (at, width) = (random.at(), random.of(&[1, 2, 2, 4, 4, 4, 4, 4, 4, 0, 3, 8]));
    let (letter, place) = words(at);
    if random.below(2) == 0 {
        let answer = machine.read(guest, at, width).map(Some);
        return (format!("{name} {letter}r {place} {width}"), reply(name, answer, width));
    }
    let value = random.value();
    let answer = machine.write(guest, at, width, value).map(|()| None);
    (format!("{name} {letter}w {place} {width} {value:#x}"), reply(name, answer, width))
}

fn raise(random: &mut Random, machine: &mut Machine) -> (String, String) {
    let index = random.below(2) as usize;
    let (name, slot) = (NAMES[index], random.below(3));
    let (part, word, offset) = random.of(&[
        (Part::Config, "cfg", 7),
        (Part::Region(1), "bar1", 9),
        (Part::Region(0), "bar0", 40),
    ]);
    let answer = machine.raise(Guest::of_index(index), slot, part, offset, 0x80).map(|()| None);
    (format!("{name} raise {slot} {word} {offset} 0x80"), reply(name, answer, 0))
}

fn host_read(random: &mut Random, machine: &mut Machine) -> (String, String) {
    let (at, width) = (random.at(), random.of(&[1, 2, 4, 3]));
    let (bus, device, function) =
        (random.below(3) as u8, random.below(4) as u8, random.below(2) as u8);
    let (letter, place) = words(at);
    let (place, at) = match at {
        At::Config { offset, .. } => {
            let at = HostAt::Config { bus, device, function, offset };
            (format!("{bus:02x}:{device:02x}.{function} {offset}"), at)
        }
        At::Io { port } => (place, HostAt::Io { port }),
        At::Memory { address } => (place, HostAt::Memory { address }),
    };
    let answer = machine.host_read(at, width).map(Some);
    (format!("host {letter}r {place} {width}"), reply("host", answer, width))
}

fn move_function(random: &mut Random, machine: &mut Machine) -> (String, String) {
    let (from, to) = (random.below(2) as usize, random.below(2) as usize);
    let (slot, target) = (random.below(3), random.below(4));
    let answer = machine
        .move_function(Guest::of_index(from), slot, Guest::of_index(to), target)
        .map(|()| None);
    (format!("host move {} {slot} {} {target}", NAMES[from], NAMES[to]), reply("host", answer, 0))
}

#[test]
fn calls_and_lines_answer_alike() -> Result<(), Error> {
    for seed in 1..=3 {
        let mut random = Random(2 * seed + 1);
        let (mut calls, mut lines) = (Machine::new(BOARD)?, Machine::new(BOARD)?);
        let (mut refused, mut values) = (0, 0);
        for _ in 0..10_000 {
            let (line, answered) = match random.below(80) {
                0 => move_function(&mut random, &mut calls),
                1..=8 => raise(&mut random, &mut calls),
                9..=19 => host_read(&mut random, &mut calls),
                _ => access(&mut random, &mut calls),
            };
            refused += u32::from(answered.contains("refused"));
            values += u32::from(answered.contains("0x") && !answered.ends_with("ff"));
            assert_eq!(lines.run_line(&line)?, Some(answered), "{line}");
        }
        assert!(refused > 500 && values > 500, "{refused} refused, {values} values");
    }
    Ok(())
}

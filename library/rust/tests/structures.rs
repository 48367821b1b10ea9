//! Devices that declare capability lists.

use pciguest::{
    At, Declaration, DeviceModel, Error, Kind, Machine, NotAttached, Register, Registers, Structure,
};
use std::panic::{catch_unwind, set_hook, take_hook};
use std::sync::{Arc, Mutex};

const MSIX: Structure = Structure::msix(0x44, 1, (1, 0), (1, 0x800));
const MSI: Structure = Structure::msi(0x50, 4, true);
const POWER: Structure = Structure::power(0x68);
const NOTIFY: Structure =
    Structure::vendor(0x70, 16).with("multiplier", Register::in_config(12, 4).reset(4));
const OWN: Structure =
    Structure::vendor(0xf0, 5).with("own", Register::in_config(3, 2).rw(0xff).w1c(0xff00));
const BEFORE: Register = Register::in_config(0x40, 2).rw(0xffff);
const AFTER: Register = Register::in_config(0xc0, 1).reset(0x5a);

fn head() -> Declaration {
    Declaration::new(0x1234, 0x00d2, 0xff0000)
        .region(1, Kind::Mem32, 0x10000)
        .register(Register::in_region(1, 0, 8).rw(u64::MAX - 3))
        .register(Register::in_region(1, 8, 8).rw(0x1_ffff_ffff).reset(1 << 32))
        .register(AFTER)
        .register(BEFORE)
}

fn with(structures: &[Structure]) -> Declaration {
    structures.iter().copied().fold(head(), Declaration::structure)
}

/// Has a list between its own registers of configuration space, and keeps what its driver wrote.
struct Listed(Declaration, Vec<(Register, u64)>);

impl DeviceModel for Listed {
    fn declaration(&self) -> Declaration {
        self.0.clone()
    }

    fn on_write(&mut self, _: &mut Registers<'_>, register: Register, value: u64) {
        self.1.push((register, value));
    }
}

fn machine() -> Result<Machine, Error> {
    let host = "host = { io = [0x1000, 0xffff], mem = [0xc0000000, 0xdfffffff] }\n";
    let guest = "[[guest]]\nname = \"a\"\nslots = [\"1.0\"]\n";
    let endpoint = with(&[MSIX, MSI, POWER, NOTIFY, OWN]).endpoint("1.0");
    Machine::new([host, &endpoint, guest].concat())
}

#[test]
fn a_list_is_declared() -> Result<(), Error> {
    let mut machine = machine()?;
    let a = machine.guest("a")?;
    let device = Listed(with(&[MSIX, MSI, POWER, NOTIFY, OWN]), Vec::new());
    let device = Arc::new(Mutex::new(device));
    machine.attach(a, 0, Arc::clone(&device)).expect("a device");
    let list: Vec<(u8, u64)> =
        machine.capabilities(a, 0)?.iter().map(|it| (it.id, it.offset)).collect();
    assert_eq!(list, [(0x11, 0x44), (0x05, 0x50), (0x01, 0x68), (0x09, 0x70), (0x09, 0xf0)]);
    let at = |offset| At::Config { slot: 0, offset };
    for (offset, width, value) in
        [(0x46, 2, 0xffff), (0x52, 2, 0xffff), (0x54, 4, 0xfee0_1003), (0x6c, 2, 3), (0xf3, 1, 7)]
    {
        machine.write(a, at(offset), width, value)?;
    }
    let mut registers = machine.registers(a, 0)?;
    let mut get = |structure: Structure, name| registers.get(structure.named(name));
    assert_eq!([get(MSIX, "control"), get(MSIX, "pending")], [0xc000, 0x801]);
    assert_eq!([get(MSI, "control"), get(MSI, "address")], [0x1f5, 0xfee0_1000]);
    assert_eq!([get(POWER, "control"), get(NOTIFY, "multiplier")], [3, 4]);
    assert_eq!([get(NOTIFY, "length"), get(OWN, "own")], [16, 7]);
    assert!(machine.msix_message(a, 0, 0)?.is_enabled);
    let told = &device.lock().unwrap().1;
    assert_eq!(told[0], (MSIX.named("control"), 0xffff));
    assert_eq!(told[4], (OWN.named("own"), 7));
    Ok(())
}

#[test]
fn another_list_is_found() -> Result<(), Error> {
    let two = Structure::msix(0x44, 2, (1, 0), (1, 0x800));
    for (field, structures) in [
        ("capabilities", vec![OWN, NOTIFY, POWER, MSI, MSIX]),
        ("capabilities", vec![MSIX, MSI, POWER, NOTIFY]),
        ("capabilities", vec![MSIX, MSI, POWER, NOTIFY, OWN, Structure::power(0x80)]),
        (
            "reset of the register at 0x46 of configuration space",
            vec![two, MSI, POWER, NOTIFY, OWN],
        ),
    ] {
        let mut machine = machine()?;
        let a = machine.guest("a")?;
        match machine.attach(a, 0, Listed(with(&structures), Vec::new())) {
            Err(NotAttached::DeclaredOtherwise(difference)) => assert_eq!(difference.field, field),
            answer => panic!("{field}: {answer:?}"),
        }
    }
    // one that declares none says nothing of the list
    let mut machine = machine()?;
    let a = machine.guest("a")?;
    assert_eq!(machine.attach(a, 0, Listed(head(), Vec::new())), Ok(()));
    Ok(())
}

fn made<T>(_: T) {}

#[test]
fn lists_that_can_not_be() {
    let (here, others) = (std::thread::current().id(), take_hook());
    set_hook(Box::new(move |told| {
        if std::thread::current().id() != here {
            others(told)
        }
    }));
    let wrong: [fn(); 12] = [
        || made(with(&[POWER, POWER])),
        || made(with(&[Structure::power(0x40)])),
        || made(with(&[POWER]).register(Register::in_config(0x6f, 1))),
        || made(Structure::power(0x3c)),
        || made(Structure::power(0x41)),
        || made(Structure::power(0xfc)),
        || made(Structure::msi(0x40, 3, false)),
        || made(Structure::msix(0x40, 0, (0, 0), (0, 0))),
        || made(Structure::msix(0x40, 1, (6, 0), (0, 0))),
        || made(Structure::msix(0x40, 1, (0, 4), (0, 0))),
        || made(Structure::vendor(0x40, 4).with("one", Register::in_config(3, 2))),
        || made(MSIX.named("other")),
    ];
    for (at, wrong) in wrong.into_iter().enumerate() {
        assert!(catch_unwind(wrong).is_err(), "{at}");
    }
    let far = |offset| catch_unwind(|| made(head().register(Register::in_region(1, offset, 4))));
    let text = |offset| *far(offset).unwrap_err().downcast::<String>().unwrap();
    assert!(text(0xffe).contains("outside the first 0x1000 bytes of its region"));
    assert!(text(0xfffe).contains("outside its part"));
}

//! Devices that call buses: of their own machine, which waits for them, and of another one.

mod doorbell;

use doorbell::{Doorbell, BELL, TOP};
use pciguest::{
    Declaration, DeviceModel, Error, Guest, GuestBus, Machine, Register, Registers, SlotConfig,
    Space,
};
use std::sync::{Arc, Mutex};

/// A device that calls what it is given when its driver rings.
struct Calls<F>(F);

impl<F: FnMut() + Send> DeviceModel for Calls<F> {
    fn declaration(&self) -> Declaration {
        Doorbell::default().declaration()
    }

    fn on_write(&mut self, _: &mut Registers<'_>, register: Register, _: u64) {
        if register == BELL {
            (self.0)()
        }
    }
}

/// A machine whose device calls what it is given, behind a lock, and its guest.
fn calling(
    call: impl FnMut() + Send + 'static, machine: &Arc<Mutex<Machine>>,
) -> Result<Guest, Error> {
    let mut held = machine.lock().unwrap();
    let a = held.guest("a")?;
    held.attach(a, 0, Calls(call)).expect("a device");
    held.run_line("a cw 0 0x10 4 0xe0000000")?;
    held.run_line("a cw 0 4 2 2")?;
    Ok(a)
}

fn machine() -> Arc<Mutex<Machine>> {
    let endpoint = Doorbell::default().declaration().endpoint("1.0");
    let guest = "[[guest]]\nname = \"a\"\nslots = [\"1.0\"]\n";
    let board = [TOP, &endpoint, guest].concat();
    Arc::new(Mutex::new(Machine::new(board).expect("a board")))
}

/// It would wait for itself: this ends, and says why.
#[test]
fn a_device_that_calls_a_bus_of_its_own_machine_panics() -> Result<(), Error> {
    std::panic::set_hook(Box::new(|_| ()));
    let guest = Guest::of_index(0);
    for by_bus in [true, false] {
        let own = machine();
        let bus = GuestBus::new(Arc::clone(&own), guest, Space::Memory);
        let config = SlotConfig::new(Arc::clone(&own), guest, 0);
        let ring = bus.clone();
        calling(
            move || match by_bus {
                true => bus.read(0xe000_0000, 0, &mut [0; 4]),
                false => drop(config.read_config_register(0)),
            },
            &own,
        )?;
        let rings = ring.clone();
        let ended = std::thread::spawn(move || rings.write(0xe000_0000, 8, &[1])).join();
        let said = ended.unwrap_err();
        let said = said.downcast_ref::<&str>().copied().unwrap_or_default();
        assert!(said.contains("a bus of its own machine"), "{said}");
        let mut bell = [0; 1];
        ring.read(0xe000_0000, 8, &mut bell); // the machine goes on
        assert_eq!(bell, [1]);
    }
    Ok(())
}

#[test]
fn a_device_calls_a_bus_of_another_machine() -> Result<(), Error> {
    let (own, other) = (machine(), machine());
    let count = Arc::new(Mutex::new(0));
    let counted = Arc::clone(&count);
    let a = calling(move || *counted.lock().unwrap() += 1, &other)?;
    let bell = GuestBus::new(other, a, Space::Memory);
    calling(move || bell.write(0xe000_0000, 8, &[1]), &own)?;
    GuestBus::new(own, a, Space::Memory).write(0xe000_0000, 8, &[1]);
    assert_eq!(*count.lock().unwrap(), 1);
    Ok(())
}

//! What a device has to be like, what it is told beside accesses, and what it keeps.

mod doorbell;

use doorbell::{memory, Case, Doorbell, BELL, FAR, LONG, MORE, OWN, PORT, RINGS, STATUS};
use pciguest::{
    Declaration, DeviceModel, Error, Guest, Kind, Machine, NotAttached, Register, Registers,
};
use std::sync::{Arc, Mutex};

/// The same device with another declaration.
struct Other(Declaration);

impl DeviceModel for Other {
    fn declaration(&self) -> Declaration {
        self.0.clone()
    }
}

#[test]
fn what_is_not_attached() {
    let mut case = Case::new();
    let a = case.a;
    let declared = Doorbell::default().declaration();
    let answer = case.machine.attach(a, 0, Other(declared.clone()));
    assert_eq!(answer, Err(NotAttached::Taken));
    let answer = case.machine.attach(a, 2, Other(declared.clone()));
    assert_eq!(answer.unwrap_err().to_string(), "slot is empty (601)");
    assert_eq!(case.machine.attach(a, 1, Other(declared)), Ok(()));
    case.machine.write(a, memory(0xe000_0008), 4, 1).unwrap();
    assert_eq!(case.machine.registers(a, 1).unwrap().get(RINGS), 0);
}

/// The device's regions and registers over another identity.
fn with_registers(
    identity: Declaration, registers: impl IntoIterator<Item = Register>,
) -> Declaration {
    let regions = identity.region(0, Kind::Mem32, 0x1000).region(1, Kind::Io, 32).region(
        2,
        Kind::Mem64p,
        0x10000,
    );
    registers.into_iter().fold(regions, Declaration::register)
}

const REGISTERS: [Register; 8] = [STATUS, RINGS, BELL, PORT, FAR, LONG, OWN, MORE];

fn identity(device_id: u16, class_code: u32) -> Declaration {
    Declaration::new(0x1234, device_id, class_code).subsystem(0x1111, 0x2222).interrupt_pin(1)
}

/// The registers with one in place of that at an index.
fn with(index: usize, register: Register) -> Declaration {
    let mut registers = REGISTERS;
    registers[index] = register;
    with_registers(identity(0x00d0, 0xff0000), registers)
}

/// All that a device declares is compared, in the order of a board file, and the first field that differs is named.
#[test]
fn what_differs_is_named() {
    let mut case = Case::new();
    let own = || identity(0x00d0, 0xff0000);
    let all = |identity| with_registers(identity, REGISTERS);
    let region = |at, kind, size| all(own()).region(at, kind, size);
    let others = [
        ("vendor_id", all(Declaration::new(0x1235, 0x00d0, 0xff0000))),
        ("device_id", all(identity(0x00d1, 0xff0001))),
        ("revision_id", all(own().revision(1))),
        ("class_code", all(identity(0x00d0, 0xff0001).subsystem(0, 0))),
        ("subsystem_vendor_id", all(own().subsystem(0, 0x2222))),
        ("subsystem_id", all(own().subsystem(0x1111, 0x2223))),
        ("interrupt_pin", all(own().interrupt_pin(2))),
        ("region 0", region(0, Kind::Mem32p, 0x1000)),
        ("region 1", region(1, Kind::Io, 64)),
        ("region 4", region(4, Kind::Io, 32)),
        ("w1c of the register at 0x0 of region 0", with(0, STATUS.w1c(3))),
        ("rw of the register at 0x4 of region 0", with(1, RINGS.rw(1 << 31))),
        ("reset of the register at 0x8 of region 0", with(2, BELL.reset(0))),
        ("width of the register at 0xffc of region 2", with(4, Register::in_region(2, 0xffc, 4))),
        ("rw of the register at 0x40 of configuration space", with(6, OWN.rw(0x1ff))),
        (
            "width of the register at 0x48 of configuration space",
            with(7, Register::in_config(0x48, 2)),
        ),
    ];
    for (field, other) in others {
        match case.machine.attach(case.a, 1, Other(other)) {
            Err(NotAttached::DeclaredOtherwise(difference)) => assert_eq!(difference.field, field),
            answer => panic!("{field}: {answer:?}"),
        }
    }
    let answer = case.machine.attach(case.a, 1, Other(all(identity(0x00d0, 0xff0001))));
    let said = "class_code: the device declares 0xff0001, and the function has 0xff0000";
    assert_eq!(answer.unwrap_err().to_string(), said);
}

#[test]
fn what_is_not_declared_may_be_anything() {
    let mut case = Case::new();
    let less = with_registers(identity(0x00d0, 0xff0000), [RINGS, BELL, OWN]);
    assert_ne!(less, with_registers(identity(0x00d0, 0xff0000), REGISTERS));
    assert_eq!(case.machine.attach(case.a, 1, Other(less)), Ok(()));
}

#[test]
fn bit_7_of_the_header_type_is_not_declared() {
    let [odd, plain] = ["1.1", "1.0"].map(|at| Doorbell::default().declaration().endpoint(at));
    let host = "host = { io = [0x1000, 0xffff], mem = [0xc0000000, 0xdfffffff] }\n";
    let keys = "multifunction = false\nfixed_status = 0x0200\n[[guest]]\nname = \"a\"\nslots = [\"1.1\"]\n";
    let mut machine = Machine::new([host, &plain, &odd, keys].concat()).expect("a board");
    let a = machine.guest("a").unwrap();
    assert_eq!(machine.attach(a, 0, Doorbell::default()), Ok(()));
}

/// What a device was told.
#[derive(Debug, PartialEq)]
enum Told {
    Write,
    Reset(u64),
    Move(Guest, u64),
    Give(Guest, u64),
    Take,
    Load(u64, Guest, u64),
}

/// Counts the rings since it was reset, beside its registers.
#[derive(Default)]
struct Counter {
    told: Vec<Told>,
    count: u8,
}

impl DeviceModel for Counter {
    fn declaration(&self) -> Declaration {
        Doorbell::default().declaration()
    }

    fn on_write(&mut self, registers: &mut Registers<'_>, register: Register, _: u64) {
        self.told.push(Told::Write);
        if register == BELL {
            let rings = registers.get(RINGS);
            registers.set(RINGS, rings + 1);
            self.count += 1;
        }
    }

    fn on_reset(&mut self, registers: &mut Registers<'_>) {
        self.told.push(Told::Reset(registers.get(RINGS)));
        self.count = 0;
    }

    fn on_move(&mut self, registers: &mut Registers<'_>, from: Guest, slot: u64) {
        self.told.push(Told::Move(from, slot));
        self.on_reset(registers);
    }

    fn on_give(&mut self, registers: &mut Registers<'_>) {
        self.told.push(Told::Give(registers.guest(), registers.slot()));
        self.on_reset(registers);
    }

    fn on_take(&mut self) {
        self.told.push(Told::Take);
    }

    fn on_load(&mut self, registers: &mut Registers<'_>) {
        let (guest, slot) = (registers.guest(), registers.slot());
        self.told.push(Told::Load(registers.get(RINGS), guest, slot));
    }

    fn save_state(&self) -> Vec<u8> {
        vec![self.count]
    }

    fn load_state(&mut self, _: &mut Registers<'_>, state: &[u8]) -> bool {
        if let [count] = *state {
            self.count = count;
        }
        state.len() == 1
    }
}

/// The board, with a counter behind the function in slot 1 of guest a, whose driver rang once.
struct Counted {
    case: Case,
    counter: Arc<Mutex<Counter>>,
}

impl Counted {
    fn new() -> Result<Counted, Error> {
        let mut case = Case::new();
        let (a, counter) = (case.a, Arc::<Mutex<Counter>>::default());
        case.machine.detach(a, 0)?;
        case.machine.attach(a, 1, Arc::clone(&counter)).expect("a device");
        case.machine.run_line("a cw 0 4 2 0")?;
        case.place(a, 1)?;
        case.write(memory(0xe000_0008), 4, 1);
        let mut counted = Counted { case, counter };
        counted.told();
        Ok(counted)
    }

    fn told(&mut self) -> Vec<Told> {
        std::mem::take(&mut self.counter.lock().unwrap().told)
    }

    fn count(&self) -> u8 {
        self.counter.lock().unwrap().count
    }
}

#[test]
fn resets_are_told() -> Result<(), Error> {
    let mut counted = Counted::new()?;
    let (a, b) = (counted.case.a, counted.case.b);
    counted.case.machine.reset(a, 0)?; // another's
    counted.case.machine.reset_guest(b)?;
    assert_eq!((counted.told(), counted.count()), (vec![], 1));
    counted.case.machine.reset(a, 1)?;
    assert_eq!((counted.told(), counted.count()), (vec![Told::Reset(0)], 0));
    counted.case.machine.reset_guest(a)?;
    assert_eq!(counted.told(), [Told::Reset(0)]);
    Ok(())
}

#[test]
fn moves_are_told() -> Result<(), Error> {
    let mut counted = Counted::new()?;
    let (a, b) = (counted.case.a, counted.case.b);
    counted.case.machine.move_function(a, 0, b, 3)?; // another's
    counted.case.machine.move_function(a, 1, b, 1)?;
    assert_eq!(counted.told(), [Told::Move(a, 1), Told::Reset(0)]);
    counted.case.machine.run_line("host move b 1 a 9\n")?;
    assert_eq!(counted.told(), [Told::Move(b, 1), Told::Reset(0)]);
    counted.case.machine.run_line("host move b 1 a 9")?; // refused
    counted.case.machine.run_line("a raise 9 bar0 0 1")?;
    counted.case.machine.take(a, 9)?;
    assert_eq!(counted.told(), [Told::Take]);
    counted.case.machine.give("2.0", b, 0)?;
    assert_eq!(counted.told(), [Told::Give(b, 0), Told::Reset(0)]);
    counted.case.place(b, 0)?;
    counted.case.machine.write(b, memory(0xe000_0008), 4, 1)?;
    assert_eq!(counted.case.machine.registers(b, 0)?.get(RINGS), 1);
    Ok(())
}

#[test]
fn what_is_refused_tells_nothing() -> Result<(), Error> {
    let mut counted = Counted::new()?;
    let (a, machine) = (counted.case.a, &mut counted.case.machine);
    let refused = [
        machine.reset(a, 7),
        machine.move_function(a, 1, a, 0),
        machine.load_image(a, []),
        machine.take(a, 7),
        machine.load_all([]),
    ];
    assert!(refused.iter().all(Result::is_err));
    assert_eq!(counted.told(), []);
    Ok(())
}

#[test]
fn a_guest_goes_on_elsewhere() -> Result<(), Error> {
    let (mut here, mut there) = (Counted::new()?, Counted::new()?);
    let a = here.case.a;
    let image = here.case.machine.save(a)?;
    let state = here.case.machine.save_state(a, 1)?;
    there.case.machine.reset_guest(a)?;
    there.told();
    there.case.machine.load_image(a, &image)?;
    assert_eq!((there.told(), there.count()), (vec![Told::Load(1, a, 1)], 0));
    there.case.machine.load_state(a, 1, &state)?;
    assert_eq!(there.count(), 1);
    let number = |answer: Result<(), Error>| answer.unwrap_err().number();
    assert_eq!(number(there.case.machine.load_state(a, 1, &[])), 905);
    assert_eq!(number(there.case.machine.load_state(a, 0, &state)), 902);
    assert_eq!(number(there.case.machine.save_state(a, 0).map(drop)), 902);
    assert_eq!(number(there.case.machine.detach(a, 0).map(drop)), 902);
    assert_eq!(number(there.case.machine.detach(a, 2).map(drop)), 601);
    assert_eq!(there.count(), 1);
    Ok(())
}

#[test]
fn a_machine_goes_on() -> Result<(), Error> {
    let mut counted = Counted::new()?;
    let (a, b) = (counted.case.a, counted.case.b);
    counted.case.machine.move_function(a, 1, b, 5)?;
    let image = counted.case.machine.save_all()?;
    counted.case.machine.move_function(b, 5, a, 2)?;
    counted.told();
    counted.case.machine.load_all(&image)?;
    assert_eq!(counted.told(), [Told::Load(0, b, 5)]);
    counted.case.machine.take(b, 5)?;
    let empty = counted.case.machine.save_all()?;
    counted.case.machine.load_all(&image)?;
    assert_eq!(counted.told(), [Told::Take, Told::Load(0, b, 5)]);
    counted.case.machine.load_all(&empty)?;
    assert_eq!(counted.told(), [Told::Take]);
    Ok(())
}

#[test]
fn a_device_is_detached() -> Result<(), Error> {
    let mut counted = Counted::new()?;
    let a = counted.case.a;
    let device = counted.case.machine.detach(a, 1)?;
    counted.case.write(memory(0xe000_0008), 4, 2);
    assert_eq!((counted.told(), device.save_state()), (vec![], vec![1]));
    assert_eq!(counted.case.machine.registers(a, 1).unwrap_err().number(), 902);
    let mut other = Case::new(); // where it goes on
    other.machine.attach(a, 1, device).expect("a device");
    other.machine.reset(a, 1)?;
    assert_eq!(counted.told(), [Told::Reset(0)]);
    Ok(())
}

//! The crate for Rust without the standard library: a machine with a device, as a kernel or a unikernel has it. What it takes
//! instead is `alloc`, over the C library's memory here. It ends with 0 where all is well.
#![no_std]
#![no_main]

extern crate alloc;

use alloc::vec::Vec;
use core::alloc::{GlobalAlloc, Layout};
use core::ffi::c_void;
use pciguest::{At, Declaration, DeviceModel, Kind, Machine, Register, Registers};

// (the second has what `alloc` takes to unwind, which never begins here)
#[link(name = "c")]
#[link(name = "gcc_s")]
extern "C" {
    fn malloc(size: usize) -> *mut c_void;
    fn free(block: *mut c_void);
    fn abort() -> !;
}

struct Blocks;

// SAFETY: no layout that is asked for here takes more than malloc's alignment of 16.
unsafe impl GlobalAlloc for Blocks {
    unsafe fn alloc(&self, layout: Layout) -> *mut u8 {
        malloc(layout.size()).cast()
    }

    unsafe fn dealloc(&self, block: *mut u8, _: Layout) {
        free(block.cast())
    }
}

#[global_allocator]
static BLOCKS: Blocks = Blocks;

/// A second one, of the standard library, would be refused.
#[panic_handler]
fn panics(_: &core::panic::PanicInfo<'_>) -> ! {
    unsafe { abort() }
}

const RINGS: Register = Register::in_region(0, 0x04, 4);
const BELL: Register = Register::in_region(0, 0x08, 4).rw(0xffff_ffff);

struct Doorbell;

impl DeviceModel for Doorbell {
    fn declaration(&self) -> Declaration {
        let head = Declaration::new(0x1234, 0x0001, 0xff0000).region(0, Kind::Mem32, 0x1000);
        head.register(RINGS).register(BELL)
    }

    fn on_write(&mut self, registers: &mut Registers<'_>, register: Register, _: u64) {
        if register == BELL {
            let rings = registers.get(RINGS);
            registers.set(RINGS, rings + 1);
        }
    }
}

fn rings() -> Result<u64, pciguest::Error> {
    let mut board =
        Vec::from(&b"host = { io = [0x1000, 0xffff], mem = [0xc0000000, 0xdfffffff] }\n"[..]);
    board.extend(Doorbell.declaration().endpoint("1.0").bytes());
    board.extend(b"[[guest]]\nname = \"a\"\nslots = [\"1.0\"]\n");
    let mut machine = Machine::new(board)?;
    let a = machine.guest("a")?;
    if machine.attach(a, 0, Doorbell).is_err() {
        return Ok(0);
    }
    machine.write(a, At::Config { slot: 0, offset: 0x10 }, 4, 0xe000_0000)?;
    machine.write(a, At::Config { slot: 0, offset: 4 }, 2, 2)?;
    machine.write_wide(a, At::Memory { address: 0xe000_0007 }, 4, 7)?;
    machine.read_wide(a, At::Memory { address: 0xe000_0004 }, 4)
}

#[no_mangle]
extern "C" fn main() -> i32 {
    i32::from(rings() != Ok(1))
}

#[no_mangle]
extern "C" fn rust_eh_personality() {}

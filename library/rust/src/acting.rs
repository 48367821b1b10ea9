//! The machines that wait, on this thread, for one of their devices to act.

use crate::machine::Machine;
use std::cell::RefCell;
use std::mem::size_of;
use std::sync::Mutex;

thread_local! {
    static WAITING: RefCell<Vec<usize>> = const { RefCell::new(Vec::new()) };
}

/// While this value exists, a machine waits.
pub(crate) struct Acting(());

impl Acting {
    pub(crate) fn begin(machine: *const Machine) -> Acting {
        WAITING.with(|waiting| waiting.borrow_mut().push(machine as usize));
        Acting(())
    }
}

impl Drop for Acting {
    fn drop(&mut self) {
        WAITING.with(|waiting| waiting.borrow_mut().pop());
    }
}

/// Whether the machine in a lock waits for a device that acts on this thread.
pub(crate) fn waits(lock: &Mutex<Machine>) -> bool {
    let first = lock as *const Mutex<Machine> as usize;
    let within = first..first + size_of::<Mutex<Machine>>();
    WAITING.with(|waiting| waiting.borrow().iter().any(|at| within.contains(at)))
}

//! The crate and the library are of the version of the header. `tools/bindings` generates the declarations
//! from there; `tests/tools.sh` tests it.

const HEADER: &str = include_str!("../../../pciguest.h");

#[test]
fn version_is_that_of_the_header() {
    let line = format!("#define PCIGUEST_VERSION \"{}\"", env!("CARGO_PKG_VERSION"));
    assert!(HEADER.contains(&line), "Cargo.toml tells another version than pciguest.h");
}

#[test]
fn the_library_is_of_that_version_too() {
    let part = |text: &str| text.parse::<u32>().expect("a number");
    let (major, minor, patch) = (
        part(env!("CARGO_PKG_VERSION_MAJOR")),
        part(env!("CARGO_PKG_VERSION_MINOR")),
        part(env!("CARGO_PKG_VERSION_PATCH")),
    );
    // SAFETY: it takes nothing.
    let version = unsafe { pciguest_sys::pciguest_version() };
    assert_eq!(version, 10000 * major + 100 * minor + patch);
}

/// A machine is made, asked and freed as in C.
#[test]
fn calls_are_those_of_c() {
    use pciguest_sys::{pciguest_free, pciguest_new, pciguest_read, Handle, CONFIG, NO_MACHINE};

    let board = "host = { io = [0x1000, 0xffff], mem = [0xc0000000, 0xdfffffff] }\n\
                 endpoint = [ { at = \"1.0\", vendor = 0x1234, device = 1, class = 0xff0000 } ]\n\
                 guest = [ { name = \"a\", slots = [\"1.0\"] } ]\n";
    let mut machine = Handle { live: false, at: std::ptr::null_mut() };
    let mut value = 0;
    // SAFETY: the handle begins as that of no machine, and nothing overlaps.
    unsafe {
        assert_eq!(pciguest_new(&mut machine, board.as_ptr(), board.len()), 0);
        assert_eq!(pciguest_read(&mut machine, 0, CONFIG, 0, 0, 4, &mut value), 0);
        pciguest_free(&mut machine);
        assert_eq!(pciguest_read(&mut machine, 0, CONFIG, 0, 0, 4, &mut value), NO_MACHINE);
    }
    assert_eq!(value, 0x0001_1234);
}

//! Saving guests and whole machines as bytes, which can be loaded into other machines.

use crate::error::{answered, valued, Error};
use crate::image_fault::ImageFault;
use crate::machine::Machine;
use crate::place::Guest;
use crate::prelude::*;
use crate::raw;

impl Machine {
    /// Returns the size of a guest's image, which [`Machine::save`] returns, in bytes. The size stays the same
    /// as long as the guest has the same functions in the same slots. Changes nothing. 902: there is no such
    /// guest.
    ///
    /// ```
    /// # const BOARD: &str = include_str!("board.toml");
    /// let mut machine = pciguest::Machine::new(BOARD)?;
    /// let a = machine.guest("a")?;
    /// let size = machine.image_size(a)?;
    /// machine.run_line("a cw 0 4 2 2")?;
    /// assert_eq!(machine.image_size(a)?, size);
    /// machine.take(a, 0)?;
    /// assert_eq!(machine.image_size(a)?, 12 + 32); // a byte for each empty slot
    /// # Ok::<(), pciguest::Error>(())
    /// ```
    pub fn image_size(&mut self, guest: Guest) -> Result<usize, Error> {
        let (mut size, mut none) = (0, 0);
        // SAFETY: nothing is written, because there is no room, and `size` is a separate variable.
        let number =
            unsafe { raw::pciguest_save(&mut self.handle, guest.index(), &mut none, 0, &mut size) };
        if size > 0 {
            return Ok(size); // the library stored the size, because there is no room
        }
        answered(number).map(|()| size)
    }

    /// Returns a guest's image, which contains everything that belongs to the guest: its CONFIG_ADDRESS and,
    /// for each of its 32 slots, the declaration of the function and the contents of the guest's registers. It
    /// contains nothing about the board, about other guests, or about where the functions are.
    /// `docs/image-format.md` describes the bytes. The state that a device keeps outside its registers isn't
    /// included; [`Machine::save_state`] returns it. Changes nothing. 902: there is no such guest.
    ///
    /// ```
    /// # const BOARD: &str = include_str!("board.toml");
    /// let mut machine = pciguest::Machine::new(BOARD)?;
    /// let a = machine.guest("a")?;
    /// machine.run_line("a iw 0xcf8 4 0x80000804")?;
    /// let image = machine.save(a)?;
    /// assert_eq!(image.len(), machine.image_size(a)?);
    /// assert_eq!(&image[..12], b"PCIG\x01\0\0\0\x04\x08\0\x80"); // the format, its version, and CONFIG_ADDRESS
    /// # Ok::<(), pciguest::Error>(())
    /// ```
    pub fn save(&mut self, guest: Guest) -> Result<Vec<u8>, Error> {
        let mut image = vec![0; self.image_size(guest)?];
        let (machine, guest, mut needed) = (&mut self.handle, guest.index(), 0);
        // SAFETY: `image` has the given length, and nothing overlaps.
        answered(unsafe {
            raw::pciguest_save(machine, guest, image.as_mut_ptr(), image.len(), &mut needed)
        })?;
        image.truncate(needed);
        Ok(image)
    }

    /// Loads an image into a guest, which then has the same state as the guest that was saved. The same slots
    /// must contain functions, and these must have equal declarations. They may be elsewhere or on another
    /// board, and the machine of the image isn't needed any more. Other guests don't notice anything. The
    /// guest's devices are notified ([`DeviceModel::on_load`](crate::DeviceModel::on_load)).
    ///
    /// # Errors
    ///
    /// 905: the bytes aren't an image. 908: the image has another version of the format. 906: other slots
    /// contain functions, or a declaration differs. The first byte that fails decides between these. 902: there
    /// is no such guest.
    ///
    /// ```
    /// # const BOARD: &str = include_str!("board.toml");
    /// let mut machine = pciguest::Machine::new(BOARD)?;
    /// let a = machine.guest("a")?;
    /// machine.run_line("a cw 0 4 2 2")?;
    /// let image = machine.save(a)?;
    ///
    /// let mut other = pciguest::Machine::new(BOARD)?; // the guest continues there
    /// other.load_image(a, &image)?;
    /// assert_eq!(other.run_line("a cr 0 4 2")?.as_deref(), Some("a: 0x0002"));
    /// assert_eq!(other.load_image(a, &image[1..]).unwrap_err().to_string(), "not a valid image (905)");
    /// other.take(a, 0)?;
    /// assert_eq!(other.load_image(a, &image).unwrap_err().to_string(), "image is for other functions (906)");
    /// # Ok::<(), pciguest::Error>(())
    /// ```
    pub fn load_image(&mut self, guest: Guest, image: impl AsRef<[u8]>) -> Result<(), Error> {
        let image = image.as_ref();
        // SAFETY: `image` has the given length, and nothing overlaps.
        answered(unsafe {
            raw::pciguest_load(&mut self.handle, guest.index(), image.as_ptr(), image.len())
        })?;
        self.tell(|(of, _)| of == guest, |model, registers| model.on_load(registers));
        Ok(())
    }

    /// Returns where an image that [`Machine::load_image`] refuses with 906 or 908 stops fitting the guest: the
    /// slot, the byte, and the field that contains the byte. Returns `None` for any other image. Changes
    /// nothing. 902: there is no such guest.
    ///
    /// ```
    /// # const BOARD: &str = include_str!("board.toml");
    /// let mut machine = pciguest::Machine::new(BOARD)?;
    /// let a = machine.guest("a")?;
    /// let image = machine.save(a)?;
    /// assert_eq!(machine.image_fault(a, &image)?, None);
    ///
    /// let mut other = pciguest::Machine::new(BOARD.replace("size = 4096", "size = 8192"))?;
    /// assert_eq!(other.load_image(a, &image).unwrap_err().to_string(), "image is for other functions (906)");
    /// let fault = other.image_fault(a, &image)?.unwrap();
    /// assert_eq!(fault.to_string(), "slot 0: the size of bar0");
    /// # Ok::<(), pciguest::Error>(())
    /// ```
    pub fn image_fault(
        &mut self, guest: Guest, image: impl AsRef<[u8]>,
    ) -> Result<Option<ImageFault>, Error> {
        let image = image.as_ref();
        let (bytes, length, mut slot, mut offset) = (image.as_ptr(), image.len(), 0, 0);
        let (machine, guest) = (&mut self.handle, guest.index());
        // SAFETY: the image has the given length, and nothing overlaps.
        answered(unsafe {
            raw::pciguest_image_fault(machine, guest, bytes, length, &mut slot, &mut offset)
        })?;
        Ok(ImageFault::at(image, slot, offset))
    }

    /// Returns the size of the whole machine's image, which [`Machine::save_all`] returns, in bytes. The size
    /// stays the same as long as the guests have the same functions in the same slots. Changes nothing.
    ///
    /// ```
    /// # const BOARD: &str = include_str!("board.toml");
    /// let mut machine = pciguest::Machine::new(BOARD)?;
    /// let size = machine.image_size_all()?;
    /// machine.run_line("a cw 0 4 2 2")?;
    /// assert_eq!(machine.image_size_all()?, size);
    /// # Ok::<(), pciguest::Error>(())
    /// ```
    pub fn image_size_all(&mut self) -> Result<usize, Error> {
        // SAFETY: `size` is a separate variable.
        valued(|size| unsafe { raw::pciguest_image_size_all(&mut self.handle, size) })
    }

    /// Returns the whole machine's image: which guest has which function in which slot, each guest's state, and
    /// a description of the board, of how it was set up, and of its guests. `docs/image-format.md` describes
    /// the bytes. The state that a device keeps outside its registers isn't included; [`Machine::save_state`]
    /// returns it. Changes nothing.
    ///
    /// ```
    /// # const BOARD: &str = include_str!("board.toml");
    /// let mut machine = pciguest::Machine::new(BOARD)?;
    /// let image = machine.save_all()?;
    /// assert_eq!(image.len(), machine.image_size_all()?);
    /// assert_eq!(&image[..8], b"PCIM\x01\0\0\0"); // the format, and its version
    /// # Ok::<(), pciguest::Error>(())
    /// ```
    pub fn save_all(&mut self) -> Result<Vec<u8>, Error> {
        let mut image = vec![0; self.image_size_all()?];
        let mut needed = 0;
        // SAFETY: `image` has the given length, and nothing overlaps.
        answered(unsafe {
            raw::pciguest_save_all(&mut self.handle, image.as_mut_ptr(), image.len(), &mut needed)
        })?;
        image.truncate(needed);
        Ok(image)
    }

    /// Loads an image into the whole machine. Afterwards, each slot contains the same function as in the
    /// machine that was saved, and each guest has the same state. The board must be equal and set up in the
    /// same way, and its guests must have the same names in the same order; their state, and where their
    /// functions are now, doesn't matter. The machine of the image isn't needed any more. Devices are notified
    /// ([`DeviceModel::on_load`](crate::DeviceModel::on_load)).
    ///
    /// # Errors
    ///
    /// 905: the bytes aren't an image of a machine. 906: a slot can't have the function that the image says, or
    /// a declaration differs. 907: the board, its guests or the way in which it was set up differ. 908: the
    /// image, or a guest's image in it, has another version of the format. 299: memory runs out.
    /// `docs/image-format.md` says what is checked first.
    ///
    /// ```
    /// # const BOARD: &str = include_str!("board.toml");
    /// let mut machine = pciguest::Machine::new(BOARD)?;
    /// let a = machine.guest("a")?;
    /// machine.move_function(a, 0, a, 5)?;
    /// machine.run_line("a cw 5 4 2 2")?;
    /// let image = machine.save_all()?;
    ///
    /// let mut other = pciguest::Machine::new(BOARD)?; // all guests continue there
    /// other.load_all(&image)?;
    /// assert_eq!(other.run_line("a cr 5 4 2")?.as_deref(), Some("a: 0x0002"));
    /// assert_eq!(other.load_all(&image[1..]).unwrap_err().to_string(), "not a valid image (905)");
    /// let renamed = BOARD.replace("\"a\"", "\"z\"");
    /// let refused = pciguest::Machine::new(renamed)?.load_all(&image);
    /// assert_eq!(refused.unwrap_err().to_string(), "image is for another board (907)");
    /// # Ok::<(), pciguest::Error>(())
    /// ```
    pub fn load_all(&mut self, image: impl AsRef<[u8]>) -> Result<(), Error> {
        let image = image.as_ref();
        // SAFETY: `image` has the given length, and nothing overlaps.
        answered(unsafe { raw::pciguest_load_all(&mut self.handle, image.as_ptr(), image.len()) })?;
        self.tell_loaded();
        Ok(())
    }

    /// Resets all functions of a guest, without moving them, and the guest's CONFIG_ADDRESS. Nothing carries
    /// over. 902: there is no such guest.
    ///
    /// ```
    /// # const BOARD: &str = include_str!("board.toml");
    /// let mut machine = pciguest::Machine::new(BOARD)?;
    /// let a = machine.guest("a")?;
    /// let at_reset = machine.save(a)?;
    /// machine.run_line("a cw 0 4 2 2")?;
    /// machine.reset_guest(a)?;
    /// assert_eq!(machine.save(a)?, at_reset);
    /// # Ok::<(), pciguest::Error>(())
    /// ```
    pub fn reset_guest(&mut self, guest: Guest) -> Result<(), Error> {
        // SAFETY: no pointer except the handle is passed.
        answered(unsafe { raw::pciguest_reset_guest(&mut self.handle, guest.index()) })?;
        self.tell(|(of, _)| of == guest, |model, registers| model.on_reset(registers));
        Ok(())
    }
}

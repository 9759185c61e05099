//! A device of this program's own.

use board_ports::Device;
use std::cell::RefCell;
use std::rc::Rc;

/// Moments and words in a list that several share.
pub type Copies = Rc<RefCell<Vec<(u32, u32)>>>;

/// A device that copies its words to a shared list, which outlives it. A copy that can't be made is a fault. It tells no log.
#[derive(Drop)]
pub struct CopyingDevice {
    copies: Copies,
    faults: u64,
    writes: u64,
}

impl CopyingDevice {
    /// The device, without faults.
    pub fn new(copies: Copies) -> CopyingDevice {
        CopyingDevice {
            copies,
            faults: 0,
            writes: 0,
        }
    }
}

/// Appends a copy. False where the list is in use, or where no memory is left for it.
fn copied(copies: &Copies, now: u32, word: u32) -> bool {
    match copies.try_borrow_mut() {
        Ok(mut list) => list.push((now, word)).is_ok(),
        Err(_) => false,
    }
}

impl Device for CopyingDevice {
    ghost account = { λ device. record { log = None; faults = device.faults; writes = device.writes } };

    fn logged(&self, _at: usize) -> Option<(u32, u32)> {
        None
    }

    fn write(&mut self, now: u32, word: u32) -> bool {
        self.writes = self.writes.saturating_add(1);
        if copied(&self.copies, now, word) {
            return true;
        }
        self.faults = self.faults.saturating_add(1);
        false
    }

    fn settle(&mut self) -> bool {
        true
    }
}

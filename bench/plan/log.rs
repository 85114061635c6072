// The log device.
use super::MAX;

pub struct Log {
    // How many slots there are, and what those hold that are reserved.
    slots: u64,
    pub reserved: Vec<Option<u64>>,
    pub mark: u64,
    // How many slots are filled, from the first one up to an empty one.
    pub whole: u64,
}

impl Log {
    pub fn new(slots: usize) -> Log {
        Log { slots: slots as u64, reserved: Vec::with_capacity(slots), mark: 0, whole: 0 }
    }

    pub fn reserve(&mut self) -> u64 {
        if self.reserved.len() as u64 == self.slots {
            return 0;
        }
        self.reserved.push(None);
        self.reserved.len() as u64
    }

    pub fn put(&mut self, slot: u64, value: u64) -> u64 {
        if slot == 0 || slot > self.slots {
            return MAX;
        }
        match self.reserved.get_mut(slot as usize - 1) {
            Some(empty @ None) => *empty = Some(value),
            _ => return 1,
        }
        while let Some(Some(_)) = self.reserved.get(self.whole as usize) {
            self.whole += 1;
        }
        0
    }

    pub fn mark(&mut self, slot: u64) -> u64 {
        if slot > self.slots {
            return MAX;
        }
        if slot > self.reserved.len() as u64 {
            return 1;
        }
        self.mark = self.mark.max(slot);
        0
    }
}

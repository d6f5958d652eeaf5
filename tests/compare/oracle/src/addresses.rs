//! Where the objects of a trace stand: each at an address of its own, its handle where that is free, else the next that is. A collected object gives its address back.
use std::collections::HashMap;

/// A kind and a handle.
pub type Object = (u8, u64);

#[derive(Default)]
pub struct Addresses {
    of: HashMap<Object, u64>,
    at: HashMap<u64, Object>,
}

impl Addresses {
    pub fn address(&mut self, object: Object) -> u64 {
        if let Some(&address) = self.of.get(&object) {
            return address;
        }
        let mut address = object.1;
        while self.at.contains_key(&address) {
            address = address.wrapping_add(1);
        }
        self.of.insert(object, address);
        self.at.insert(address, object);
        address
    }

    /// Of a live object's address, which a value is never without.
    pub fn handle(&self, address: u64) -> u64 {
        self.at[&address].1
    }

    pub fn collect(&mut self, object: Object) {
        if let Some(address) = self.of.remove(&object) {
            self.at.remove(&address);
        }
    }
}

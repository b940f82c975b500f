//! The chute store: two lists as long as the room, keys ascending in the places used, 0 in both
//! lists past them.

/// Entries by ascending key; `keys` and `chutes` have one length, the room.
#[derive(Clone, Debug, PartialEq, Eq, Hash)]
pub struct Store {
    pub keys: Vec<u64>,
    pub chutes: Vec<u16>,
    pub used: u16,
}

impl Store {
    /// An empty store.
    pub fn new(room: u16) -> Store {
        Store {
            keys: vec![0; room.into()],
            chutes: vec![0; room.into()],
            used: 0,
        }
    }

    /// The entries in use, each a key and its chute.
    pub fn entries(&self) -> impl Iterator<Item = (u64, u16)> {
        let entries = self.keys.iter().copied().zip(self.chutes.iter().copied());
        entries.take(self.used.into())
    }

    pub fn is_full(&self) -> bool {
        self.keys.len() <= self.used.into()
    }

    /// The chute of a key, 0 where there is none.
    pub fn chute(&self, key: u64) -> u16 {
        self.find(key).map_or(0, |place| self.chutes[place])
    }

    /// Puts an entry in where its key belongs; where the key is there, its entry gets the chute,
    /// since each key stands once. The store is not full.
    pub fn insert(&mut self, key: u64, chute: u16) {
        let used = usize::from(self.used);
        let place = match self.find(key) {
            Ok(_) => return self.replace(key, chute),
            Err(place) => place,
        };
        self.keys.copy_within(place..used, place + 1);
        self.chutes.copy_within(place..used, place + 1);
        self.keys[place] = key;
        self.chutes[place] = chute;
        self.used += 1;
    }

    /// Takes the entry of a key out, if there is one.
    pub fn remove(&mut self, key: u64) {
        let Ok(place) = self.find(key) else { return };
        let last = usize::from(self.used) - 1;
        self.keys.copy_within(place + 1..=last, place);
        self.chutes.copy_within(place + 1..=last, place);
        self.keys[last] = 0;
        self.chutes[last] = 0;
        self.used -= 1;
    }

    /// Gives the entry of a key another chute, if there is one.
    pub fn replace(&mut self, key: u64, chute: u16) {
        if let Ok(place) = self.find(key) {
            self.chutes[place] = chute;
        }
    }

    /// The place of a key, or as an error the place where it belongs.
    fn find(&self, key: u64) -> Result<usize, usize> {
        self.keys[..self.used.into()].binary_search(&key)
    }
}

#[cfg(test)]
mod tests {
    use super::*;

    /// Document 01, section "Command list and store": insert shifts later entries up, delete
    /// shifts them down, and the places past the used ones hold 0. Key 0 is a real item.
    #[test]
    fn entries_are_shifted_up_and_down() {
        let mut store = Store::new(4);
        for (key, chute) in [(5, 50), (9, 90), (0, 10), (7, 70)] {
            assert!(!store.is_full());
            store.insert(key, chute);
        }
        assert!(store.is_full());
        assert_eq!(
            (&store.keys[..], &store.chutes[..]),
            (&[0, 5, 7, 9][..], &[10, 50, 70, 90][..])
        );
        store.remove(5);
        store.remove(6);
        assert_eq!(
            (&store.keys[..], &store.chutes[..]),
            (&[0, 7, 9, 0][..], &[10, 70, 90, 0][..])
        );
        assert_eq!(store.used, 3);
    }

    #[test]
    fn a_chute_is_found_by_its_key_and_replaced() {
        let mut store = Store::new(3);
        assert_eq!(store.chute(0), 0);
        store.insert(0, 7);
        store.insert(3, 8);
        store.replace(0, 9);
        store.replace(1, 10);
        assert_eq!([0, 1, 3].map(|key| store.chute(key)), [9, 0, 8]);
        assert_eq!(store.used, 2);
    }

    /// Document 01: keys ascend, so that no key stands twice.
    #[test]
    fn an_entry_put_in_again_is_the_same_entry() {
        let mut store = Store::new(3);
        store.insert(3, 8);
        store.insert(0, 7);
        store.insert(3, 9);
        assert_eq!(
            (&store.keys[..], &store.chutes[..]),
            (&[0, 3, 0][..], &[7, 9, 0][..])
        );
        assert_eq!(store.used, 2);
    }
}

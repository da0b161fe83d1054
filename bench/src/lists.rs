//! Many short lists in one vector.

const NONE: u32 = u32::MAX;

/// Lists by number. Each item has the place of the one before it in its list, and each list that of its latest item.
pub struct Lists<T> {
    latest: Vec<u32>,
    items: Vec<(T, u32)>,
}

impl<T> Default for Lists<T> {
    fn default() -> Lists<T> {
        Lists { latest: Vec::new(), items: Vec::new() }
    }
}

impl<T: Copy> Lists<T> {
    /// A new empty list; its number.
    pub fn open(&mut self) -> u32 {
        self.latest.push(NONE);
        self.latest.len() as u32 - 1
    }

    pub fn push(&mut self, list: u32, item: T) {
        let latest = &mut self.latest[list as usize];
        self.items.push((item, *latest));
        *latest = self.items.len() as u32 - 1;
    }

    /// The items of a list, the latest first.
    pub fn of(&self, list: u32) -> impl Iterator<Item = T> + '_ {
        let mut place = self.latest[list as usize];
        std::iter::from_fn(move || {
            let &(item, before) = self.items.get(place as usize)?;
            place = before;
            Some(item)
        })
    }
}

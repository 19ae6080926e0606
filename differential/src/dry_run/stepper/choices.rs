//! The caller's list of bytes.

pub struct Choices<'a> {
    list: &'a [u8],
    taken: usize,
}

impl<'a> Choices<'a> {
    pub fn new(list: &'a [u8]) -> Choices<'a> {
        Choices { list, taken: 0 }
    }

    /// One of so many, by the list's next byte. A choice of one takes no byte; a list that ends starts over, an empty one counts as
    /// zeros.
    pub fn of(&mut self, count: usize) -> usize {
        if count == 1 || self.list.is_empty() {
            return 0;
        }
        let byte = self.list[self.taken % self.list.len()];
        self.taken += 1;
        byte as usize % count
    }
}

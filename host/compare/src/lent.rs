//! A buffer to lend, with a known fill in it and on both sides of it.

/// How many bytes on each side are watched.
pub const GUARD: usize = 64;

pub struct Lent {
    bytes: Vec<u8>,
    fill: Vec<u8>,
}

impl Lent {
    pub fn new() -> Lent {
        let mut lent = Lent { bytes: Vec::new(), fill: Vec::new() };
        lent.reach(1024);
        lent
    }

    fn reach(&mut self, room: usize) {
        let had = self.fill.len();
        if had < room + 2 * GUARD {
            // by place, so that a byte moved is seen as well as a byte changed
            self.fill.extend((had..room + 2 * GUARD).map(|at| (at * 167 + at / 256 + 91) as u8));
            self.bytes.extend_from_slice(&self.fill[had..]);
        }
    }

    /// The buffer of so many bytes, as it is lent.
    pub fn out(&mut self, room: usize) -> &mut [u8] {
        self.reach(room);
        &mut self.bytes[GUARD..GUARD + room]
    }

    /// Whether the buffer begins with a text and everything else, on both sides too, is as it was; then it is filled again.
    pub fn holds_only(&mut self, text: &[u8], room: usize) -> bool {
        let (until, all) = (GUARD + text.len(), room + 2 * GUARD);
        let good = self.bytes[..GUARD] == self.fill[..GUARD]
            && self.bytes[GUARD..until] == *text
            && self.bytes[until..all] == self.fill[until..all];
        if good && !text.is_empty() {
            self.bytes[GUARD..until].copy_from_slice(&self.fill[GUARD..until]);
        }
        good
    }

    /// The bytes as lent, and as they came back, with those on both sides.
    pub fn both(&self, room: usize) -> (&[u8], &[u8]) {
        (&self.fill[..room + 2 * GUARD], &self.bytes[..room + 2 * GUARD])
    }

    pub fn refill(&mut self) {
        self.bytes.copy_from_slice(&self.fill);
    }
}

#[cfg(test)]
mod tests {
    use super::*;

    #[test]
    fn what_is_written_is_seen_and_nothing_else_may_change() {
        let mut lent = Lent::new();
        lent.out(4)[..2].copy_from_slice(b"ab");
        assert!(lent.holds_only(b"ab", 4), "and filled again");
        assert!(lent.holds_only(b"", 4));
        for changed in [GUARD - 1, GUARD, GUARD + 3, GUARD + 4, 2 * GUARD + 3] {
            lent.bytes[changed] ^= 1;
            assert!(!lent.holds_only(b"", 4), "byte {changed}");
            lent.refill();
        }
    }
}

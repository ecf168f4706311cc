//! Buses and layers over them.

/// Why a bus refuses, by its number.
#[derive(Clone, Copy, Debug, PartialEq, Eq)]
pub enum Cause {
    NoByte = 4,
    RomStore = 5,
    Guarded = 6,
    OutsideShadow = 7,
}

/// What a bus answers where it refuses. `depth` counts the layers above the one that refused.
#[derive(Clone, Copy, Debug, PartialEq, Eq)]
pub struct Refusal {
    pub cause: Cause,
    pub depth: u8,
}

impl Refusal {
    const fn here(cause: Cause) -> Self {
        Self { cause, depth: 0 }
    }

    /// The same refusal as seen from one layer further up.
    const fn raised(self) -> Self {
        Self { depth: self.depth.saturating_add(1), ..self }
    }
}

pub trait Bus {
    fn read(&self, address: u16) -> Result<u8, Refusal>;

    /// Whether a store to `address` would be taken.
    fn inquire(&self, address: u16) -> Result<(), Refusal>;

    fn store(&mut self, address: u16, byte: u8) -> Result<(), Refusal>;
}

/// RAM whose byte i is at `base` + i. Bytes past address 65,535 are never reached, since no address leads there.
#[derive(Clone, Debug)]
pub struct Ram<S> {
    pub base: u16,
    pub bytes: S,
}

/// As RAM, for reading only.
#[derive(Clone, Debug)]
pub struct Rom<S> {
    pub base: u16,
    pub bytes: S,
}

/// The place of `address` on a bus that begins at `base`.
fn place(base: u16, address: u16) -> Option<usize> {
    address.checked_sub(base).map(usize::from)
}

fn read_at(base: u16, bytes: &[u8], address: u16) -> Result<u8, Refusal> {
    place(base, address).and_then(|i| bytes.get(i)).copied().ok_or(Refusal::here(Cause::NoByte))
}

impl<S: AsRef<[u8]> + AsMut<[u8]>> Bus for Ram<S> {
    #[inline]
    fn read(&self, address: u16) -> Result<u8, Refusal> {
        read_at(self.base, self.bytes.as_ref(), address)
    }

    #[inline]
    fn inquire(&self, address: u16) -> Result<(), Refusal> {
        self.read(address).map(|_| ())
    }

    #[inline]
    fn store(&mut self, address: u16, byte: u8) -> Result<(), Refusal> {
        let cell = place(self.base, address)
            .and_then(|i| self.bytes.as_mut().get_mut(i))
            .ok_or(Refusal::here(Cause::NoByte))?;
        *cell = byte;
        Ok(())
    }
}

impl<S: AsRef<[u8]>> Bus for Rom<S> {
    #[inline]
    fn read(&self, address: u16) -> Result<u8, Refusal> {
        read_at(self.base, self.bytes.as_ref(), address)
    }

    #[inline]
    fn inquire(&self, address: u16) -> Result<(), Refusal> {
        self.read(address)?;
        Err(Refusal::here(Cause::RomStore))
    }

    #[inline]
    fn store(&mut self, address: u16, _: u8) -> Result<(), Refusal> {
        self.inquire(address)
    }
}

/// A telephone line of the board: its class and the party on it, each 0 to 15.
#[derive(Clone, Copy, Debug, Default, PartialEq, Eq)]
pub struct Trunk {
    class: u8,
    party: u8,
}

impl From<u8> for Trunk {
    fn from(byte: u8) -> Self {
        Self { class: byte / 16, party: byte % 16 }
    }
}

impl From<Trunk> for u8 {
    fn from(trunk: Trunk) -> Self {
        16 * trunk.class + trunk.party
    }
}

/// Sixteen trunks from `base` on.
#[derive(Clone, Debug)]
pub struct LineBoard {
    pub base: u16,
    pub trunks: [Trunk; 16],
}

impl Bus for LineBoard {
    #[inline]
    fn read(&self, address: u16) -> Result<u8, Refusal> {
        let trunk = place(self.base, address).and_then(|i| self.trunks.get(i));
        trunk.map(|&trunk| trunk.into()).ok_or(Refusal::here(Cause::NoByte))
    }

    #[inline]
    fn inquire(&self, address: u16) -> Result<(), Refusal> {
        self.read(address).map(|_| ())
    }

    #[inline]
    fn store(&mut self, address: u16, byte: u8) -> Result<(), Refusal> {
        let trunk =
            place(self.base, address).and_then(|i| self.trunks.get_mut(i)).ok_or(Refusal::here(Cause::NoByte))?;
        *trunk = byte.into();
        Ok(())
    }
}

/// Refuses stores from `first` to `last`, both included, and none where `first` is above `last`.
#[derive(Clone, Debug)]
pub struct Guard<B> {
    pub first: u16,
    pub last: u16,
    pub below: B,
}

impl<B> Guard<B> {
    fn admit(&self, address: u16) -> Result<(), Refusal> {
        if (self.first..=self.last).contains(&address) {
            return Err(Refusal::here(Cause::Guarded));
        }
        Ok(())
    }
}

impl<B: Bus> Bus for Guard<B> {
    #[inline]
    fn read(&self, address: u16) -> Result<u8, Refusal> {
        self.below.read(address).map_err(Refusal::raised)
    }

    #[inline]
    fn inquire(&self, address: u16) -> Result<(), Refusal> {
        self.admit(address)?;
        self.below.inquire(address).map_err(Refusal::raised)
    }

    #[inline]
    fn store(&mut self, address: u16, byte: u8) -> Result<(), Refusal> {
        self.admit(address)?;
        self.below.store(address, byte).map_err(Refusal::raised)
    }
}

/// Sends addresses under `at` to `low`, the others to `high`.
#[derive(Clone, Debug)]
pub struct Split<L, H> {
    pub at: u16,
    pub low: L,
    pub high: H,
}

impl<L: Bus, H: Bus> Bus for Split<L, H> {
    #[inline]
    fn read(&self, address: u16) -> Result<u8, Refusal> {
        let answer = if address < self.at { self.low.read(address) } else { self.high.read(address) };
        answer.map_err(Refusal::raised)
    }

    #[inline]
    fn inquire(&self, address: u16) -> Result<(), Refusal> {
        let answer = if address < self.at { self.low.inquire(address) } else { self.high.inquire(address) };
        answer.map_err(Refusal::raised)
    }

    #[inline]
    fn store(&mut self, address: u16, byte: u8) -> Result<(), Refusal> {
        let answer = if address < self.at { self.low.store(address, byte) } else { self.high.store(address, byte) };
        answer.map_err(Refusal::raised)
    }
}

/// Keeps what is stored in a page of 256 addresses away from the bus below.
#[derive(Clone, Debug)]
pub struct Shadow<B> {
    page: u8,
    kept: [Option<u8>; 256],
    below: B,
}

impl<B> Shadow<B> {
    pub fn new(page: u8, below: B) -> Self {
        Self { page, kept: [None; 256], below }
    }

    /// The place of `address` in the page.
    fn place(&self, address: u16) -> Option<usize> {
        let [low, page] = address.to_le_bytes();
        (page == self.page).then(|| low.into())
    }
}

impl<B: Bus> Bus for Shadow<B> {
    #[inline]
    fn read(&self, address: u16) -> Result<u8, Refusal> {
        match self.place(address).and_then(|i| self.kept[i]) {
            Some(byte) => Ok(byte),
            None => self.below.read(address).map_err(Refusal::raised),
        }
    }

    #[inline]
    fn inquire(&self, address: u16) -> Result<(), Refusal> {
        self.place(address).ok_or(Refusal::here(Cause::OutsideShadow))?;
        self.below.read(address).map(|_| ()).map_err(Refusal::raised)
    }

    #[inline]
    fn store(&mut self, address: u16, byte: u8) -> Result<(), Refusal> {
        self.inquire(address)?;
        if let Some(i) = self.place(address) {
            self.kept[i] = Some(byte);
        }
        Ok(())
    }
}

#[cfg(test)]
mod tests {
    use super::*;

    fn refused(cause: Cause, depth: u8) -> Result<u8, Refusal> {
        Err(Refusal { cause, depth })
    }

    fn ram(base: u16, bytes: &[u8]) -> Ram<Vec<u8>> {
        Ram { base, bytes: bytes.to_vec() }
    }

    #[test]
    fn ram_has_bytes_from_its_base_on() {
        let mut ram = ram(10, &[1, 2]);
        assert_eq!(ram.read(9), refused(Cause::NoByte, 0));
        assert_eq!((ram.read(10), ram.read(11)), (Ok(1), Ok(2)));
        assert_eq!(ram.read(12), refused(Cause::NoByte, 0));
        assert_eq!(ram.store(11, 7), Ok(()));
        assert_eq!(ram.store(12, 7).map(|()| 0), refused(Cause::NoByte, 0));
        assert_eq!(ram.bytes, [1, 7]);
    }

    #[test]
    fn ram_past_the_last_address_is_not_reached() {
        let ram = ram(65_535, &[1, 2]);
        assert_eq!(ram.read(65_535), Ok(1));
        assert_eq!(ram.read(0), refused(Cause::NoByte, 0));
    }

    #[test]
    fn rom_refuses_stores_to_its_bytes_and_has_no_others() {
        let mut rom = Rom { base: 10, bytes: [1, 2] };
        assert_eq!(rom.read(11), Ok(2));
        assert_eq!(rom.store(11, 7).map(|()| 0), refused(Cause::RomStore, 0));
        assert_eq!(rom.store(12, 7).map(|()| 0), refused(Cause::NoByte, 0));
    }

    #[test]
    fn a_trunk_is_a_byte_of_two_halves() {
        let mut board = LineBoard { base: 100, trunks: Default::default() };
        assert_eq!(board.store(115, 0x5A), Ok(()));
        assert_eq!(board.trunks[15], Trunk { class: 5, party: 10 });
        assert_eq!(board.read(115), Ok(0x5A));
        assert_eq!(board.read(116), refused(Cause::NoByte, 0));
        assert_eq!(board.read(99), refused(Cause::NoByte, 0));
    }

    #[test]
    fn a_guard_answers_for_its_addresses_without_asking_below() {
        let guard = Guard { first: 5, last: 20, below: ram(10, &[1]) };
        assert_eq!(guard.inquire(5).map(|()| 0), refused(Cause::Guarded, 0));
        assert_eq!(guard.inquire(20).map(|()| 0), refused(Cause::Guarded, 0));
        assert_eq!(guard.inquire(21).map(|()| 0), refused(Cause::NoByte, 1));
        assert_eq!(guard.read(10), Ok(1));
        assert_eq!(guard.read(11), refused(Cause::NoByte, 1));
        let open = Guard { first: 6, last: 5, ..guard };
        assert_eq!(open.inquire(10), Ok(()));
    }

    #[test]
    fn a_shadow_keeps_what_is_stored() {
        let mut shadow = Shadow::new(1, Rom { base: 256, bytes: [1, 2] });
        assert_eq!(shadow.read(257), Ok(2));
        assert_eq!(shadow.store(257, 9), Ok(()));
        assert_eq!(shadow.read(257), Ok(9));
        assert_eq!(shadow.below.read(257), Ok(2));
        assert_eq!(shadow.inquire(258).map(|()| 0), refused(Cause::NoByte, 1));
        assert_eq!(shadow.inquire(255).map(|()| 0), refused(Cause::OutsideShadow, 0));
        assert_eq!(shadow.inquire(512).map(|()| 0), refused(Cause::OutsideShadow, 0));
    }

    #[test]
    fn a_depth_stops_at_255() {
        let deep = (0..300).fold(Refusal::here(Cause::NoByte), |refusal, _| refusal.raised());
        assert_eq!(deep.depth, 255);
    }
}

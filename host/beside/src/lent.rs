//! Memory that is lent to the library, with canaries on both sides.

const GUARD: usize = 8;

/// What a lent slice consists of.
pub trait Place: Copy {
    const CANARY: Self;
    fn bits(self) -> u64;
}

impl Place for u8 {
    const CANARY: Self = 0xa5;
    fn bits(self) -> u64 {
        u64::from(self)
    }
}

impl Place for u32 {
    const CANARY: Self = 0xdead_beef;
    fn bits(self) -> u64 {
        u64::from(self)
    }
}

impl Place for u64 {
    const CANARY: Self = 0xdead_beef_dead_beef;
    fn bits(self) -> u64 {
        self
    }
}

impl Place for usize {
    const CANARY: Self = 0xdead_beef_dead_beef;
    fn bits(self) -> u64 {
        self as u64
    }
}

impl Place for i64 {
    const CANARY: Self = -0x1234_5678_9abc_def0;
    fn bits(self) -> u64 {
        self as u64
    }
}

impl Place for f64 {
    const CANARY: Self = 1.2345e67;
    fn bits(self) -> u64 {
        self.to_bits()
    }
}

pub fn bits<T: Place>(places: &[T]) -> Vec<u64> {
    places.iter().map(|place| place.bits()).collect()
}

/// What a lent result of so many places holds before the call.
pub fn filled(room: usize) -> Vec<u64> {
    (0..room as u64)
        .map(|place| 0xfeed_0000_0000_0000 + place)
        .collect()
}

pub fn filled_u32(room: usize) -> Vec<u32> {
    (0..room as u32)
        .map(|place| 0xfeed_0000 + place % 0x1_0000)
        .collect()
}

pub fn filled_usize(room: usize) -> Vec<usize> {
    filled(room)
        .into_iter()
        .map(|place| place as usize)
        .collect()
}

/// A lent slice, with what it held before the call.
pub struct Lent<'c, T: Place> {
    name: &'static str,
    before: &'c [T],
    places: Vec<T>,
}

impl<'c, T: Place> Lent<'c, T> {
    pub fn new(name: &'static str, before: &'c [T]) -> Self {
        let guard = [T::CANARY; GUARD];
        let places = [&guard[..], before, &guard[..]].concat();
        Self {
            name,
            before,
            places,
        }
    }

    pub fn slice(&mut self) -> &mut [T] {
        let end = self.places.len() - GUARD;
        &mut self.places[GUARD..end]
    }

    fn intact(&self) -> bool {
        let end = self.places.len() - GUARD;
        let beside = self.places[..GUARD].iter().chain(&self.places[end..]);
        beside
            .map(|place| place.bits())
            .all(|bits| bits == T::CANARY.bits())
    }

    /// What a slice that may be written holds now; an error if something was written beside it.
    pub fn written(&self) -> Result<(&'static str, Vec<u64>), String> {
        if !self.intact() {
            return Err(format!("the library wrote beside the {}\n", self.name));
        }
        let end = self.places.len() - GUARD;
        Ok((self.name, bits(&self.places[GUARD..end])))
    }

    /// An error if a slice that is only read was written, or something beside it.
    pub fn kept(&self) -> Result<(), String> {
        let end = self.places.len() - GUARD;
        let now = self.places[GUARD..end].iter();
        let same = now
            .zip(self.before)
            .all(|(now, before)| now.bits() == before.bits());
        if same && self.intact() {
            return Ok(());
        }
        Err(format!("the library wrote to the {}\n", self.name))
    }
}

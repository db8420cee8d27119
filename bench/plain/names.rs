//! Names and their numbers, in the order of first appearance: an open hash table of 16 bytes a place, and the
//! bytes of all names one after another. A name of up to 8 bytes is its own key, a longer one has a hash for
//! a key.

/// No number.
pub const NONE: u32 = u32::MAX;

#[derive(Clone, Copy, Default)]
struct Place {
    key: u64,
    number: u32, // plus 1; 0 where the place is free
    len: u32,
}

pub struct Names {
    bytes: Vec<u8>,
    names: Vec<u64>, // where each begins in the bytes, shifted by 8, and its length
    places: Vec<Place>,
    shift: u32,
    limit: u64,
}

const MIX: u64 = 0x9E37_79B9_7F4A_7C15;

/// Condition: 8 bytes may be read at the start of the name.
#[inline(always)]
fn key_of(name: &[u8]) -> u64 {
    let len = name.len();
    if len > 8 {
        return hash(name);
    }
    let word = unsafe { (name.as_ptr() as *const u64).read_unaligned() };
    word & !(u64::MAX.checked_shl(8 * len as u32).unwrap_or(0))
}

/// Of a name of more than 8 bytes.
#[inline(never)]
fn hash(name: &[u8]) -> u64 {
    let word = |at: usize| u64::from_le_bytes(name[at..at + 8].try_into().unwrap());
    let mix = |hash: u64, at: usize| (hash.rotate_left(23) ^ word(at)).wrapping_mul(MIX);
    let mut hash = name.len() as u64;
    let mut at = 0;
    while at + 8 <= name.len() {
        hash = mix(hash, at);
        at += 8;
    }
    hash = mix(hash, name.len() - 8);
    hash ^ hash >> 31
}

#[inline(always)]
fn place_of(key: u64, len: u32, shift: u32) -> usize {
    ((key ^ key >> 29).wrapping_add(len as u64).wrapping_mul(MIX) >> shift) as usize
}

impl Names {
    /// No names; there may be `limit`.
    pub fn new(limit: u64) -> Names {
        Names {
            bytes: Vec::new(),
            names: Vec::new(),
            places: vec![Place::default(); 256],
            shift: 56,
            limit,
        }
    }

    #[inline]
    pub fn name(&self, number: u32) -> &[u8] {
        let name = self.names[number as usize];
        let start = (name >> 8) as usize;
        &self.bytes[start..start + (name & 255) as usize]
    }

    pub fn count(&self) -> usize {
        self.names.len()
    }

    /// The number of the name, a new one where it has none; `NONE` where there are too many.
    #[inline(always)]
    pub fn number(&mut self, name: &[u8]) -> u32 {
        let key = key_of(name);
        let mask = self.places.len() - 1;
        let mut at = place_of(key, name.len() as u32, self.shift) & mask;
        loop {
            let place = &self.places[at];
            if place.key == key
                && place.len as usize == name.len()
                && place.number != 0
                && (name.len() <= 8 || self.name(place.number - 1) == name)
            {
                return place.number - 1;
            }
            if place.number == 0 {
                return self.add(name, key, at);
            }
            at = (at + 1) & mask;
        }
    }

    #[cold]
    #[inline(never)]
    fn add(&mut self, name: &[u8], key: u64, at: usize) -> u32 {
        if self.names.len() as u64 >= self.limit {
            return NONE;
        }
        let number = self.names.len() as u32;
        self.names
            .push((self.bytes.len() as u64) << 8 | name.len() as u64);
        self.bytes.extend_from_slice(name);
        self.places[at] = Place {
            key,
            number: number + 1,
            len: name.len() as u32,
        };
        if self.names.len() * 2 > self.places.len() {
            self.grow();
        }
        number
    }

    fn grow(&mut self) {
        let size = self.places.len() * 4;
        let mut places = vec![Place::default(); size];
        self.shift -= 2;
        for place in self.places.iter().filter(|place| place.number != 0) {
            let mut at = place_of(place.key, place.len, self.shift) & (size - 1);
            while places[at].number != 0 {
                at = (at + 1) & (size - 1);
            }
            places[at] = *place;
        }
        self.places = places;
    }
}

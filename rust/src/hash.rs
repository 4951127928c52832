//! Fingerprints of keys, and the bytes by which the group knows them: both are of what a key feeds
//! to a [`Hasher`].

use std::collections::hash_map::RandomState;
use std::hash::{BuildHasher, Hash, Hasher};

/// Hashes of 64 bits under secret seeds. Two keys that feed different bytes have one fingerprint
/// with a probability of at most one in about 2^60, and an attacker that chooses keys does not know
/// which.
pub(crate) struct Fingerprints([u64; 3]);

/// What a fingerprint has come to so far.
struct Fingerprint<'a> {
    state: u64,
    seeds: &'a [u64; 3],
}

#[inline]
fn fold(a: u64, b: u64) -> u64 {
    let product = u128::from(a) * u128::from(b);
    product as u64 ^ (product >> 64) as u64
}

#[inline]
fn word<const LEN: usize>(bytes: &[u8], at: usize) -> u64 {
    let mut word = [0; 8];
    word[..LEN].copy_from_slice(&bytes[at..at + LEN]);
    u64::from_le_bytes(word)
}

impl Fingerprints {
    pub(crate) fn new() -> Self {
        let random = RandomState::new();
        Fingerprints([1, 2, 3].map(|number: u64| random.hash_one(number)))
    }

    #[inline]
    pub(crate) fn of<Q: Hash + ?Sized>(&self, key: &Q) -> u64 {
        let mut fingerprint = Fingerprint { state: self.0[0], seeds: &self.0 };
        key.hash(&mut fingerprint);
        fingerprint.finish()
    }
}

impl Hasher for Fingerprint<'_> {
    #[inline]
    fn finish(&self) -> u64 {
        fold(self.state ^ self.seeds[1], self.seeds[2])
    }

    #[inline]
    fn write(&mut self, key: &[u8]) {
        let (before, [_, second, third], len) = (self.state, self.seeds, key.len());
        let (mut state, mut rest) = (before, key);
        while let Some((chunk, more)) = rest.split_first_chunk::<16>() {
            state = fold(word::<8>(chunk, 0) ^ state, word::<8>(chunk, 8) ^ second);
            rest = more;
        }
        // The last 16 bytes, which may have been read in part; or all, where there are fewer. The
        // length tells them apart, by the seed that it chooses: beside a word of the key it would
        // tell nothing apart from another length with another byte. Nothing here waits for the
        // chunks before.
        let (low, high) = match len {
            16.. => (word::<8>(key, len - 16), word::<8>(key, len - 8)),
            8.. => (word::<8>(key, 0), word::<8>(key, len - 8)),
            4.. => (word::<4>(key, 0), word::<4>(key, len - 4)),
            1.. => (
                u64::from(key[0]) << 16 | u64::from(key[len / 2]) << 8 | u64::from(key[len - 1]),
                0,
            ),
            0 => (0, 0),
        };
        let seed = third.wrapping_mul(2 * len as u64 + 1);
        self.state = state.wrapping_add(fold(low ^ before, high ^ seed));
    }

    /// The byte behind a string needs no multiplication of its own: nobody knows what is added.
    #[inline]
    fn write_u8(&mut self, number: u8) {
        match number {
            0xff => self.state = self.state.wrapping_add(self.seeds[2]),
            _ => self.write_u64(number.into()),
        }
    }

    #[inline]
    fn write_u32(&mut self, number: u32) {
        self.write_u64(number.into());
    }

    #[inline]
    fn write_u64(&mut self, number: u64) {
        self.state = fold(self.state ^ number, self.seeds[1]);
    }

    #[inline]
    fn write_usize(&mut self, number: usize) {
        self.write_u64(number as u64);
    }
}

/// The bytes that a key feeds. Equal keys feed equal bytes. Different keys may feed the same, so
/// a get of a value by these bytes compares the keys too.
#[derive(Default)]
struct Bytes(Vec<u8>);

impl Hasher for Bytes {
    fn finish(&self) -> u64 {
        0
    }

    fn write(&mut self, bytes: &[u8]) {
        self.0.extend_from_slice(bytes);
    }
}

/// Room for a number and a key of 24 bytes: longer ones are copied once more.
const USUAL_BYTES: usize = 32;

/// The bytes of the key, behind those of a number.
pub(crate) fn bytes_of<Q: Hash + ?Sized>(number: u64, key: &Q) -> Vec<u8> {
    let mut bytes = Bytes(Vec::with_capacity(USUAL_BYTES));
    bytes.write(&number.to_le_bytes());
    key.hash(&mut bytes);
    bytes.0
}

#[test]
fn keys_that_differ_in_one_byte_have_two_fingerprints() {
    struct Plain<'a>(&'a [u8]);
    impl Hash for Plain<'_> {
        fn hash<H: Hasher>(&self, state: &mut H) {
            state.write(self.0);
        }
    }
    let (fingerprints, mut all) = (Fingerprints::new(), std::collections::HashSet::new());
    for len in 0..70 {
        let mut key = vec![b'k'; len];
        assert!(all.insert(fingerprints.of(&Plain(&key))), "{len} bytes");
        for at in 0..len {
            key[at] = b'l';
            assert!(all.insert(fingerprints.of(&Plain(&key))), "{len} bytes, at {at}");
            key[at] = b'k';
        }
    }
    // Numbers, pairs in both orders, strings, and the byte that is behind a string.
    for number in 1..1000u64 {
        assert!(all.insert(fingerprints.of(&number)), "{number}");
        assert!(all.insert(fingerprints.of(&(number, 0u64))), "{number}, 0");
        assert!(all.insert(fingerprints.of(&(0u64, number))), "0, {number}");
        assert!(all.insert(fingerprints.of(&number.to_string())), "{number} in digits");
        assert!(all.insert(fingerprints.of(&(number, 0xffu8))), "{number}, 0xff");
        assert!(all.insert(fingerprints.of(&(0xffu8, number))), "0xff, {number}");
        assert!(all.insert(fingerprints.of(&(0xffu8, 0xffu8, number))), "twice 0xff, {number}");
    }
}

#[test]
fn what_is_borrowed_is_known_by_the_bytes_of_what_is_owned() {
    let fingerprints = Fingerprints::new();
    let (owned, lent) = (String::from("ada"), "ada");
    assert_eq!(fingerprints.of(&owned), fingerprints.of(lent));
    assert_eq!(bytes_of(7, &owned), bytes_of(7, lent));
    assert_eq!(fingerprints.of(&vec![1u8, 2]), fingerprints.of([1u8, 2].as_slice()));
    assert_ne!(bytes_of(7, "ada"), bytes_of(8, "ada"));
    assert_ne!(bytes_of(7, &("ab", "c")), bytes_of(7, &("a", "bc")));
}

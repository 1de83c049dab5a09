//! The lists that setup takes. Setup tests their rules: none is tested here.

/// The bytes of a device's name, with its zero, at most.
const NAME_BYTES: usize = 256;
/// The bytes of an id, with its zero, at most.
const ID_BYTES: usize = 32;
const BLOCK_WORDS: usize = 5;
const DEVICE_WORDS: usize = 4 + NAME_BYTES / 8;
const ID_WORDS: usize = 3 + ID_BYTES / 8;

/// A block of memory: its base, how many pages of 8,192 bytes it has, which of
/// them are permanent, and whether it is configured.
#[derive(Clone, Copy, Debug, PartialEq, Eq)]
#[repr(transparent)]
pub struct Block([u64; BLOCK_WORDS]);

impl Block {
    /// Unconfigured, with no permanent page.
    pub const fn new(base: u64, pages: u64) -> Block {
        Block([base, pages, 0, 0, 0])
    }

    /// With `count` permanent pages from page `first` on.
    pub const fn permanent(self, first: u64, count: u64) -> Block {
        let [base, pages, _, _, configured] = self.0;
        Block([base, pages, first, count, configured])
    }

    /// Configured or not.
    pub const fn configured(self, configured: bool) -> Block {
        let [base, pages, first, count, _] = self.0;
        Block([base, pages, first, count, configured as u64])
    }
}

/// A virtual device: an id, a name, whether it is configured, and whether it is
/// busy, which never changes.
#[derive(Clone, Copy, Debug, PartialEq, Eq)]
#[repr(transparent)]
pub struct Device([u64; DEVICE_WORDS]);

impl Device {
    /// Unconfigured and not busy. The name is without its zero; setup refuses one
    /// of more than 255 bytes, and one with a zero in it.
    pub fn new(id: u64, name: &[u8]) -> Device {
        let mut words = [0; DEVICE_WORDS];
        words[0] = id;
        words[3] = put(&mut words[4..], name);
        Device(words)
    }

    /// Configured or not.
    pub const fn configured(mut self, configured: bool) -> Device {
        self.0[1] = configured as u64;
        self
    }

    /// Busy or not.
    pub const fn busy(mut self, busy: bool) -> Device {
        self.0[2] = busy as u64;
        self
    }
}

/// An id of a service that the other end may register, with its version.
#[derive(Clone, Copy, Debug, PartialEq, Eq)]
#[repr(transparent)]
pub struct Id([u64; ID_WORDS]);

impl Id {
    /// The id is without its zero; setup refuses one of more than 31 bytes, and
    /// one with a zero in it.
    pub fn new(major: u16, highest_minor: u16, id: &[u8]) -> Id {
        let mut words = [0; ID_WORDS];
        words[0] = major.into();
        words[1] = highest_minor.into();
        words[2] = put(&mut words[3..], id);
        Id(words)
    }
}

/// Puts bytes into words, the most significant first, and gives how many there
/// are with the zero after them. Those that do not fit are left out: the number
/// tells setup.
fn put(words: &mut [u64], bytes: &[u8]) -> u64 {
    for (word, part) in words.iter_mut().zip(bytes.chunks(8)) {
        let mut eight = [0; 8];
        eight[..part.len()].copy_from_slice(part);
        *word = u64::from_be_bytes(eight);
    }
    bytes.len() as u64 + 1
}

/// A row of a list: words alone.
///
/// # Safety
///
/// The type is an array of `u64`, transparently.
pub(crate) unsafe trait Row: Sized {}

unsafe impl Row for Block {}
unsafe impl Row for Device {}
unsafe impl Row for Id {}

/// The words of a list, row after row.
pub(crate) fn words<T: Row>(rows: &[T]) -> &[u64] {
    // a row is an array of words, so that the slice is one of words too
    unsafe { core::slice::from_raw_parts(rows.as_ptr().cast(), size_of_val(rows) / 8) }
}

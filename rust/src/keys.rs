//! Keys with their values, laid out as the card and geometry calls read them.
use crate::refusal::Refusal;

/// How many keys a card or geometry call takes as names with values. [`Keys`] has no such limit.
pub const MAX_KEYS: usize = 64;
/// How many bytes the names of these keys have at most, all together.
pub const MAX_KEY_BYTES: usize = 512;

/// Keys that are already laid out: key i is the `lengths[i]` bytes from `offsets[i]` on, `values[i]` its number.
#[derive(Clone, Copy, Debug)]
pub struct Keys<'a> {
    /// The names, one after the other; gaps between them are not looked at.
    pub bytes: &'a [u8],
    /// Where each name begins, not before the end of the one before it.
    pub offsets: &'a [usize],
    /// How many bytes each name has.
    pub lengths: &'a [usize],
    /// The value of each key.
    pub values: &'a [f64],
}

/// Room for keys, on the stack.
pub(crate) struct Room {
    bytes: [u8; MAX_KEY_BYTES],
    offsets: [usize; MAX_KEYS],
    lengths: [usize; MAX_KEYS],
    values: [f64; MAX_KEYS],
}

impl Room {
    pub(crate) fn new() -> Room {
        Room { bytes: [0; MAX_KEY_BYTES], offsets: [0; MAX_KEYS], lengths: [0; MAX_KEYS], values: [0.0; MAX_KEYS] }
    }

    pub(crate) fn lay_out(&mut self, keys: &[(&str, f64)]) -> Result<Keys<'_>, Refusal> {
        if keys.len() > MAX_KEYS {
            return Err(Refusal::NoRoom);
        }
        let mut end = 0;
        for (i, (name, value)) in keys.iter().enumerate() {
            let place = self.bytes.get_mut(end..end + name.len()).ok_or(Refusal::NoRoom)?;
            place.copy_from_slice(name.as_bytes());
            (self.offsets[i], self.lengths[i], self.values[i]) = (end, name.len(), *value);
            end += name.len();
        }
        let count = keys.len();
        Ok(Keys {
            bytes: &self.bytes[..end],
            offsets: &self.offsets[..count],
            lengths: &self.lengths[..count],
            values: &self.values[..count],
        })
    }
}

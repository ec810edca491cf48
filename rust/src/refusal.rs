//! The refusals by their names, and the checks before the first call.
use crate::calls::{mivtolgya_device_size, mivtolgya_version};
use crate::record::{DeviceRecord, VERSION};
use core::fmt;

macro_rules! refusals {
    ($($(#[$about:meta])* $name:ident = $number:literal, $text:literal;)*) => {
        /// Why a call was not accepted. The numbers up to 100 are the library's; docs/USING.md has their causes and what to do.
        /// Those from 201 on are this wrapper's own.
        #[derive(Clone, Copy, Debug, PartialEq, Eq, Hash)]
        #[repr(u64)]
        pub enum Refusal {
            $($(#[$about])* $name = $number,)*
        }

        impl Refusal {
            /// Every refusal, by rising number.
            pub const ALL: &'static [Refusal] = &[$(Refusal::$name,)*];

            /// The refusal of this number; none for 0, an accepted call, and for a number of no refusal.
            pub const fn from_number(number: u64) -> Option<Refusal> {
                match number {
                    $($number => Some(Refusal::$name),)*
                    _ => None,
                }
            }

            const fn text(self) -> &'static str {
                match self {
                    $(Refusal::$name => $text,)*
                }
            }
        }
    };
}

refusals! {
    /// Keys overlap or go past the bytes, or the counts of offsets, lengths and values differ.
    KeyPairs = 1, "keys overlap or go past the bytes, or the counts differ";
    /// A byte of a key is not ASCII.
    KeyByte = 2, "a byte of a key is not ASCII";
    /// More unknown keys than the lent list has room for.
    UnknownKeys = 3, "more unknown keys than the list has room for";
    /// A key's value is NaN or out of its range.
    KeyValue = 4, "a key's value is NaN or out of its range";
    /// Flicker noise (kf) without an oxide capacitance.
    Oxide = 5, "flicker noise without an oxide capacitance";
    /// A temperature, tnom or gmin is NaN or out of range.
    Temperature = 6, "a temperature or gmin is out of range";
    /// phi or pb would fall below 0.05 V at this temperature.
    Potential = 7, "phi or pb falls below 0.05 V at this temperature";
    /// A node lies behind the end of what is lent, or above 2^32 − 1.
    Node = 8, "a node lies behind the end of what is lent, or above 2^32 - 1";
    /// A voltage is not finite or beyond 1000 V.
    Voltage = 9, "a voltage is not finite or beyond 1000 V";
    /// The call comes too early or too late.
    Stage = 10, "the call comes too early or too late";
    /// A step, or alpha where there is no step, is out of range.
    Step = 11, "a step or alpha is out of range";
    /// The matrix is not laid out as it must be, or has another count of values than the cells were resolved for.
    Pattern = 12, "the matrix is not laid out as it must be, or not as it was resolved";
    /// The matrix has no place for a value, or the cells were resolved for another binding.
    MissingCell = 13, "the matrix has no place for a value, or the cells are another binding's";
    /// Two blocks' runs of rows overlap, one leaves the right-hand side, the block has no run, or there are more than
    /// [`MOST_DEVICES`](crate::MOST_DEVICES) devices.
    Run = 14, "runs of rows overlap or leave the right-hand side, a block has no run, or too many devices";
    /// An unknown tag, or memory that is no device. Through this wrapper only a [`ConditionsRecord`](crate::ConditionsRecord) that
    /// was written by hand can have one.
    Tag = 100, "an unknown tag, or memory that is no device";
    /// The archive has another interface than this wrapper.
    OtherVersion = 201, "the archive has another interface";
    /// The archive's device has another size than this wrapper's.
    OtherRecord = 202, "the archive's device has another size";
    /// More keys or bytes than the wrapper has room for: see [`Keys`](crate::Keys).
    NoRoom = 203, "more keys or bytes than there is room for";
    /// The rounding mode is not "to nearest, ties to even".
    OtherRounding = 204, "the rounding mode is not to nearest even";
    /// Subnormal numbers are flushed to zero.
    SubnormalsLost = 205, "subnormal numbers are flushed to zero";
    /// A floating-point exception would raise a signal.
    ExceptionsTrapped = 206, "a floating-point exception would raise a signal";
}

impl Refusal {
    /// The number of the refusal.
    pub const fn number(self) -> u64 {
        self as u64
    }
}

impl fmt::Display for Refusal {
    fn fmt(&self, f: &mut fmt::Formatter<'_>) -> fmt::Result {
        write!(f, "refusal {}: {}", self.number(), self.text())
    }
}

impl core::error::Error for Refusal {}

/// What a call answers besides: 0 is accepted.
pub(crate) fn accepted(number: u64) -> Result<(), Refusal> {
    match number {
        0 => Ok(()),
        // a number of no refusal can only come from another interface
        n => Err(Refusal::from_number(n).unwrap_or(Refusal::OtherVersion)),
    }
}

/// Whether this wrapper belongs to the archive that is linked. A card asks this by itself.
pub fn check_interface() -> Result<(), Refusal> {
    // SAFETY: functions without arguments.
    let (version, size) = unsafe { (mivtolgya_version(), mivtolgya_device_size()) };
    if version != VERSION {
        Err(Refusal::OtherVersion)
    } else if size != core::mem::size_of::<DeviceRecord>() {
        Err(Refusal::OtherRecord)
    } else {
        Ok(())
    }
}

/// Whether the calling thread computes as the proofs assume: rounding to nearest even, subnormal numbers kept, no exception
/// trapped. Rust's own rules ask the same of every thread; C code that is linked can break them. A card asks this by itself.
pub fn check_floating_point() -> Result<(), Refusal> {
    let mut mxcsr = 0u32;
    // SAFETY: stores the register MXCSR to the local.
    unsafe { core::arch::asm!("stmxcsr [{}]", in(reg) &mut mxcsr, options(nostack, preserves_flags)) };
    floating_point(mxcsr)
}

/// Bits 13 and 14: the rounding mode; bit 15: flush to zero; bit 6: denormals are zero; bits 7 to 12: the exceptions' masks.
fn floating_point(mxcsr: u32) -> Result<(), Refusal> {
    if mxcsr & 0x6000 != 0 {
        Err(Refusal::OtherRounding)
    } else if mxcsr & 0x8040 != 0 {
        Err(Refusal::SubnormalsLost)
    } else if mxcsr & 0x1f80 != 0x1f80 {
        Err(Refusal::ExceptionsTrapped)
    } else {
        Ok(())
    }
}

#[cfg(test)]
mod tests {
    use super::*;

    #[test]
    fn this_thread_is_fit() {
        assert_eq!(check_interface(), Ok(()));
        assert_eq!(check_floating_point(), Ok(()));
    }

    #[test]
    fn each_setting_is_seen() {
        assert_eq!(floating_point(0x1f80), Ok(()));
        assert_eq!(floating_point(0x1fbf), Ok(())); // exceptions that were noted
        for mode in [0x2000, 0x4000, 0x6000] {
            assert_eq!(floating_point(0x1f80 | mode), Err(Refusal::OtherRounding));
        }
        for flag in [0x8000, 0x0040] {
            assert_eq!(floating_point(0x1f80 | flag), Err(Refusal::SubnormalsLost));
        }
        assert_eq!(floating_point(0x1d80), Err(Refusal::ExceptionsTrapped));
    }
}

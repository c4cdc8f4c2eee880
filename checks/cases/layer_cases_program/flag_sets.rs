//! Sets of flags.

use crate::wire_constants::narrow;
use crate::words::{Fault, done, put_text};
use bitflags::Flags;
use rows_constants::{EventFlags, RowsEventFlags, SemiSyncFlags};
use rows_constants_extra::{GtidFlags, UserVarFlags};
use std::fmt::Display;
use std::io::Write;
use wire_constants::ColumnFlags;
use wire_fields_extra::{Flags2, SqlMode};

/// Appends the bits of a set of flags and the names of the flags, or the text of the error, which must have the bits; the known
/// ones, if others are set too; and the bits of no flags, if there are any.
fn put_set<F: Flags + TryFrom<F::Bits> + Default + Drop>(
    bits: F::Bits,
    out: &mut Vec<u8>,
) -> Result<(), Fault>
where
    F::Bits: Display + PartialEq + Copy + From<F> + From<<F as TryFrom<F::Bits>>::Error>,
    <F as TryFrom<F::Bits>>::Error: Display + Copy,
{
    let known = F::Bits::from(F::from_bits_truncate(bits));
    match F::try_from(bits) {
        Ok(flags) => {
            done(write!(out, "{}", flags.bits()))?;
            for (name, _) in flags.iter_names() {
                out.push(b' ')?;
                put_text(name, out)?;
            }
            let same = F::Bits::from(flags);
            if same != known || same != bits {
                put_text(" of other bits", out)?;
            }
        }
        Err(unknown) => {
            done(write!(out, "{unknown}, known {known}"))?;
            if F::Bits::from(unknown) != bits {
                put_text(" of other bits", out)?;
            }
        }
    }
    if F::from_bits_retain(bits).bits() != bits {
        put_text(" without its bits", out)?;
    }
    let none = F::Bits::from(F::default());
    if none != F::Bits::from(F::empty()) {
        put_text(" with default flags", out)?;
    }
    Ok(())
}

/// `flags KIND BITS`: the bits and the names of the flags of this kind, or the text of the error and the known bits.
pub(crate) fn put_flags(arguments: &[&str], out: &mut Vec<u8>) -> Result<(), Fault> {
    match arguments {
        ["ColumnFlags", word] => put_set::<ColumnFlags>(narrow(word)?, out),
        ["EventFlags", word] => put_set::<EventFlags>(narrow(word)?, out),
        ["Flags2", word] => put_set::<Flags2>(narrow(word)?, out),
        ["GtidFlags", word] => put_set::<GtidFlags>(narrow(word)?, out),
        ["RowsEventFlags", word] => put_set::<RowsEventFlags>(narrow(word)?, out),
        ["SemiSyncFlags", word] => put_set::<SemiSyncFlags>(narrow(word)?, out),
        ["SqlMode", word] => put_set::<SqlMode>(narrow(word)?, out),
        ["UserVarFlags", word] => put_set::<UserVarFlags>(narrow(word)?, out),
        _ => Err(Fault::NoCase),
    }
}

//! Further types, which are asked after the built-in answer.

use crate::{ffi, Evidence, Type};
use alloc::vec::Vec;
#[cfg(feature = "std")]
use std::{
    io::{self, Read},
    path::Path,
};

/// The type of the wider answer: the first further type below what [`crate::get`] answers that accepts the buffer, and
/// that answer if there is none.
pub fn get(buf: &[u8]) -> Option<Type> {
    ffi::more_position(buf).map(|row| ffi::all_rows()[row])
}

/// The type of the wider answer by the first 8192 bytes of a regular file, or its fault.
#[cfg(feature = "std")]
pub fn get_from_path<P: AsRef<Path>>(path: P) -> io::Result<Option<Type>> {
    Ok(get(&crate::read::front_of_path(path.as_ref())?))
}

/// The type of the wider answer by the first 8192 bytes of a reader, which are gone from it then, or its fault.
#[cfg(feature = "std")]
pub fn get_from_reader<R: Read>(reader: R) -> io::Result<Option<Type>> {
    Ok(get(&crate::read::front(reader)?))
}

/// What decides the answer of [`get`], as [`crate::evidence`] tells it.
pub fn evidence(buf: &[u8]) -> Evidence {
    Evidence::of(&ffi::more_evidence(buf))
}

/// Whether no bytes that may follow can change what [`get`] answers. It can be false although none can.
pub fn is_decided(buf: &[u8]) -> bool {
    ffi::more_is_decided(buf)
}

/// Whether some bytes that may follow make some type of [`types`] with this extension accept the buffer. It need not be
/// the answer then. Of a further type it can be true although none do.
pub fn may_become(buf: &[u8], extension: &str) -> bool {
    ffi::numbered(types(), extension).any(|row| ffi::more_may_become(buf, row))
}

/// All types, in the order in which they are asked: those of [`crate::types`], and then the further ones.
pub fn types() -> &'static [Type] {
    ffi::all_rows()
}

/// A short buffer of which the type with that number in [`types`] is the answer, and nothing if no buffer has it or there
/// is no such type.
pub fn sample(number: usize) -> Vec<u8> {
    if number < types().len() {
        ffi::sample(number)
    } else {
        Vec::new()
    }
}

use crate::{get, Infer, Type};
use std::fs::{metadata, File, Metadata, OpenOptions};
use std::io::{self, ErrorKind, Read};
use std::path::Path;

/// How many bytes of a file are looked at.
const FRONT: u64 = 8192;

impl Infer {
    /// The first type that accepts the first 8192 bytes of a regular file, or its fault.
    pub fn get_from_path<P: AsRef<Path>>(&self, path: P) -> io::Result<Option<Type>> {
        Ok(self.get(&front_of_path(path.as_ref())?))
    }

    /// The first type that accepts the first 8192 bytes of a reader, which are gone from it then, or its fault.
    pub fn get_from_reader<R: Read>(&self, reader: R) -> io::Result<Option<Type>> {
        Ok(self.get(&front(reader)?))
    }
}

/// The first type that accepts the first 8192 bytes of a regular file, or its fault. No other is opened, and no FIFO holds
/// the call.
pub fn get_from_path<P: AsRef<Path>>(path: P) -> io::Result<Option<Type>> {
    Ok(get(&front_of_path(path.as_ref())?))
}

/// The first type that accepts the first 8192 bytes of a reader, which are gone from it then, or its fault. It takes no
/// others. [`whole`] gives them back.
pub fn get_from_reader<R: Read>(reader: R) -> io::Result<Option<Type>> {
    Ok(get(&front(reader)?))
}

/// The first 8192 bytes of a reader, and a reader of these and then the rest. If a read fails, what came before is gone.
pub fn whole<R: Read>(mut reader: R) -> io::Result<(Vec<u8>, impl Read)> {
    let front = front(&mut reader)?;
    Ok((front.clone(), io::Cursor::new(front).chain(reader)))
}

/// The first 8192 bytes of a reader, or all if there are fewer.
pub(crate) fn front<R: Read>(reader: R) -> io::Result<Vec<u8>> {
    let mut front = Vec::new();
    reader.take(FRONT).read_to_end(&mut front)?;
    Ok(front)
}

/// The same of a regular file.
pub(crate) fn front_of_path(path: &Path) -> io::Result<Vec<u8>> {
    // A device can act as soon as it is opened. By then the path may name another file, so that is asked again.
    refuse_unless_regular(&metadata(path)?)?;
    let file = open(path)?;
    refuse_unless_regular(&file.metadata()?)?;
    front(file)
}

/// What is no file has no front of its own. To read a folder is a fault of the system.
fn refuse_unless_regular(about: &Metadata) -> io::Result<()> {
    if about.is_file() || about.is_dir() {
        return Ok(());
    }
    Err(io::Error::new(ErrorKind::Unsupported, "not a regular file"))
}

/// Opens a file without waiting, if it has become a FIFO.
fn open(path: &Path) -> io::Result<File> {
    let mut options = OpenOptions::new();
    #[cfg(target_os = "linux")]
    std::os::unix::fs::OpenOptionsExt::custom_flags(&mut options, O_NONBLOCK | O_NOCTTY);
    options.read(true).open(path)
}

/// As on x86-64 and ARM, for which there is a library.
#[cfg(target_os = "linux")]
const O_NONBLOCK: i32 = 0o4000;
#[cfg(target_os = "linux")]
const O_NOCTTY: i32 = 0o400;

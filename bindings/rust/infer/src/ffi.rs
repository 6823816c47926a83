//! The functions of `infer.h`, and the rows, which are read once.

use crate::{MatcherType, Type};
use alloc::boxed::Box;
use alloc::string::String;
use alloc::vec;
use alloc::vec::Vec;
use core::ffi::{c_char, c_void};
use core::ptr;
use core::sync::atomic::{AtomicI32, AtomicPtr, Ordering};

mod c {
    use super::{c_char, c_void};

    unsafe extern "C" {
        pub fn infer_position(buf: *const c_void, len: usize) -> i32;
        pub fn infer_more_position(buf: *const c_void, len: usize) -> i32;
        pub fn infer_verdict(buf: *const c_void, len: usize, is_final: *mut bool) -> i32;
        pub fn infer_evidence(buf: *const c_void, len: usize, ranges: *mut super::Range, room: usize, needs: *mut super::Needs) -> i32;
        pub fn infer_more_evidence(buf: *const c_void, len: usize, ranges: *mut super::Range, room: usize, needs: *mut super::Needs)
            -> i32;
        pub fn infer_accepts(buf: *const c_void, len: usize, row: i32) -> bool;
        pub fn infer_is_decided(buf: *const c_void, len: usize) -> bool;
        pub fn infer_more_is_decided(buf: *const c_void, len: usize) -> bool;
        pub fn infer_may_become(buf: *const c_void, len: usize, row: i32) -> bool;
        pub fn infer_more_may_become(buf: *const c_void, len: usize, row: i32) -> bool;
        pub fn infer_row_count() -> usize;
        pub fn infer_more_row_count() -> usize;
        pub fn infer_mime_type(row: i32, out: *mut c_char, size: usize) -> usize;
        pub fn infer_extension(row: i32, out: *mut c_char, size: usize) -> usize;
        pub fn infer_class(row: i32) -> i32;
        pub fn infer_sample(row: i32, out: *mut c_void, size: usize) -> usize;
        pub fn infer_version(out: *mut c_char, size: usize) -> usize;
        pub fn infer_encoding(buf: *const c_void, len: usize, out: *mut c_char, size: usize) -> usize;
        pub fn infer_mime_parse(text: *const c_char, text_len: usize, out: *mut c_char, size: usize) -> usize;
        pub fn infer_mime_parameter(
            text: *const c_char,
            text_len: usize,
            name: *const c_char,
            name_len: usize,
            has: *mut bool,
            out: *mut c_char,
            size: usize,
        ) -> usize;
        pub fn infer_mime_minimize(text: *const c_char, text_len: usize, is_supported: bool, out: *mut c_char, size: usize) -> usize;
        pub fn infer_mime_extract(value: *const c_char, value_len: usize, out: *mut c_char, size: usize) -> usize;
        pub fn infer_mime_groups(text: *const c_char, text_len: usize) -> u32;
        pub fn infer_mime_is_nosniff(value: *const c_char, value_len: usize) -> bool;
        pub fn infer_mime_is_blocked(value: *const c_char, value_len: usize, destination: i32) -> bool;
        pub fn infer_mime_is_old_server(value: *const c_char, value_len: usize) -> bool;
        pub fn infer_mime_compute(
            content_type: *const c_char,
            content_type_len: usize,
            flags: u32,
            context: i32,
            buf: *const c_void,
            len: usize,
            out: *mut c_char,
            size: usize,
        ) -> usize;
        pub fn infer_mime_is_decided(
            content_type: *const c_char,
            content_type_len: usize,
            flags: u32,
            buf: *const c_void,
            len: usize,
        ) -> bool;
        pub fn infer_mime_may_be_scriptable(buf: *const c_void, len: usize) -> bool;
        pub fn infer_types_check(
            text: *const c_void,
            text_len: usize,
            line: *mut usize,
            column: *mut usize,
            reason: *mut c_char,
            size: usize,
        ) -> usize;
        pub fn infer_types_get(
            text: *const c_void,
            text_len: usize,
            buf: *const c_void,
            len: usize,
            mime_type: *mut c_char,
            mime_type_size: usize,
            extension: *mut c_char,
            extension_size: usize,
        ) -> i32;
        pub fn infer_oddities(name: *const c_void, name_len: usize) -> u32;
        pub fn infer_named(name: *const c_void, name_len: usize, buf: *const c_void, len: usize, answer: *mut super::NamedAnswer);
        pub fn infer_label_write(
            name: *const c_void,
            name_len: usize,
            buf: *const c_void,
            len: usize,
            look: u32,
            form: u32,
            flags: u32,
            types: *const c_void,
            types_len: usize,
            content_type: *const c_char,
            content_type_len: usize,
            file_size: usize,
            standing: *mut i32,
            is_known: *mut bool,
            out: *mut c_char,
            size: usize,
        ) -> usize;
        pub fn infer_types_line(text: *const c_void, text_len: usize, buf: *const c_void, len: usize) -> usize;
        pub fn infer_is(buf: *const c_void, len: usize, extension: *const c_char, extension_len: usize) -> bool;
        pub fn infer_is_mime(buf: *const c_void, len: usize, mime_type: *const c_char, mime_type_len: usize) -> bool;
        pub fn infer_is_supported(extension: *const c_char, extension_len: usize) -> bool;
        pub fn infer_is_mime_supported(mime_type: *const c_char, mime_type_len: usize) -> bool;
        pub fn infer_is_app(buf: *const c_void, len: usize) -> bool;
        pub fn infer_is_archive(buf: *const c_void, len: usize) -> bool;
        pub fn infer_is_audio(buf: *const c_void, len: usize) -> bool;
        pub fn infer_is_book(buf: *const c_void, len: usize) -> bool;
        pub fn infer_is_document(buf: *const c_void, len: usize) -> bool;
        pub fn infer_is_font(buf: *const c_void, len: usize) -> bool;
        pub fn infer_is_image(buf: *const c_void, len: usize) -> bool;
        pub fn infer_is_video(buf: *const c_void, len: usize) -> bool;
        pub fn infer_is_coff_i386(buf: *const c_void, len: usize) -> bool;
        pub fn infer_is_coff_x64(buf: *const c_void, len: usize) -> bool;
        pub fn infer_is_coff_ia64(buf: *const c_void, len: usize) -> bool;
    }
}

macro_rules! of_buffers {
    ($($(#[$doc:meta])* $name:ident = $function:ident),*) => {
        $(
            $(#[$doc])*
            pub fn $name(buf: &[u8]) -> bool {
                // SAFETY: the pointer and the length are those of a slice, which the call only reads.
                unsafe { c::$function(buf.as_ptr().cast(), buf.len()) }
            }
        )*
    };
}

of_buffers! {
    is_app = infer_is_app, is_archive = infer_is_archive, is_audio = infer_is_audio, is_book = infer_is_book,
    is_document = infer_is_document, is_font = infer_is_font, is_image = infer_is_image, is_video = infer_is_video,
    /// Whether the buffer begins as a COFF object for the processor i386.
    is_coff_i386 = infer_is_coff_i386,
    /// Whether the buffer begins as a COFF object for the processor x64.
    is_coff_x64 = infer_is_coff_x64,
    /// Whether the buffer begins as a COFF object for the processor ia64.
    is_coff_ia64 = infer_is_coff_ia64,
    is_decided = infer_is_decided, more_is_decided = infer_more_is_decided, mime_may_be_scriptable = infer_mime_may_be_scriptable
}

/// The number of the first built-in row that accepts the buffer. It is an index into [`all_rows`], as the one below.
pub fn position(buf: &[u8]) -> Option<usize> {
    // SAFETY: as above.
    usize::try_from(unsafe { c::infer_position(buf.as_ptr().cast(), buf.len()) }).ok()
}

/// The number of the wider answer's row.
pub fn more_position(buf: &[u8]) -> Option<usize> {
    // SAFETY: as above.
    usize::try_from(unsafe { c::infer_more_position(buf.as_ptr().cast(), buf.len()) }).ok()
}

/// What `position` answers, and whether that is final.
pub fn verdict(buf: &[u8]) -> (Option<usize>, bool) {
    let mut is_final = false;
    // SAFETY: as above, and `is_final` is written.
    let row = unsafe { c::infer_verdict(buf.as_ptr().cast(), buf.len(), &mut is_final) };
    (usize::try_from(row).ok(), is_final)
}

/// Whether some bytes that may follow make that built-in row accept the buffer.
pub fn may_become(buf: &[u8], row: usize) -> bool {
    // SAFETY: as above; any row may be asked for.
    unsafe { c::infer_may_become(buf.as_ptr().cast(), buf.len(), row as i32) }
}

/// The same of any row, where true can be said of a further one although none do.
pub fn more_may_become(buf: &[u8], row: usize) -> bool {
    // SAFETY: as above.
    unsafe { c::infer_more_may_become(buf.as_ptr().cast(), buf.len(), row as i32) }
}

/// `infer_range` of `infer.h`.
#[derive(Copy, Clone)]
#[repr(C)]
pub struct Range {
    pub place: usize,
    pub len: usize,
    pub step: usize,
    pub row: i32,
}

/// `infer_needs` of `infer.h`.
#[repr(C)]
pub struct Needs {
    pub wanted: usize,
    pub least: usize,
    pub is_exact: bool,
}

/// Room for all ranges, `INFER_MOST_RANGES` of `infer.h`.
const MOST_RANGES: usize = 80;

/// The number of an answer's row, or -1, and what decides it.
pub struct Why {
    pub row: i32,
    pub built_in: i32,
    pub needs: Needs,
    room: [Range; MOST_RANGES],
}

impl Why {
    fn new() -> Why {
        let needs = Needs { wanted: 0, least: 0, is_exact: false };
        Why { row: -1, built_in: -1, needs, room: [Range { place: 0, len: 0, step: 1, row: -1 }; MOST_RANGES] }
    }

    pub fn ranges(&self) -> &[Range] {
        &self.room[..self.needs.wanted.min(MOST_RANGES)]
    }
}

/// What decides the answer.
pub fn evidence(buf: &[u8]) -> Why {
    let mut why = Why::new();
    // SAFETY: as above, with room for as many ranges as are said, and `needs` is written.
    why.row = unsafe { c::infer_evidence(buf.as_ptr().cast(), buf.len(), why.room.as_mut_ptr(), MOST_RANGES, &mut why.needs) };
    why.built_in = why.row;
    why
}

/// What decides the wider answer.
pub fn more_evidence(buf: &[u8]) -> Why {
    let mut why = Why::new();
    // SAFETY: as above.
    why.row = unsafe { c::infer_more_evidence(buf.as_ptr().cast(), buf.len(), why.room.as_mut_ptr(), MOST_RANGES, &mut why.needs) };
    // SAFETY: as above.
    why.built_in = unsafe { c::infer_position(buf.as_ptr().cast(), buf.len()) };
    why
}

/// The row's sample, or nothing.
pub fn sample(row: usize) -> Vec<u8> {
    // SAFETY: without room nothing is written, and the answer is the length.
    let mut out = vec![0_u8; unsafe { c::infer_sample(row as i32, ptr::null_mut(), 0) }];
    // SAFETY: `out` has room for it.
    unsafe { c::infer_sample(row as i32, out.as_mut_ptr().cast(), out.len()) };
    out
}

/// The version of the library.
pub fn version() -> Text<TEXT_SIZE> {
    let mut out = Text::EMPTY;
    // SAFETY: `out` has room for as many bytes as it says.
    unsafe { c::infer_version(out.bytes.as_mut_ptr().cast(), out.bytes.len()) };
    out
}

/// Room for each text of the library, `INFER_TEXT_SIZE` of `infer.h`.
pub const TEXT_SIZE: usize = 74;

/// The name of the encoding, or nothing. It is written to `out`.
pub fn encoding<'out>(buf: &[u8], out: &'out mut [u8; TEXT_SIZE]) -> &'out [u8] {
    // SAFETY: as above, and `out` has room for as many bytes as it says.
    let size = unsafe { c::infer_encoding(buf.as_ptr().cast(), buf.len(), out.as_mut_ptr().cast(), out.len()) };
    &out[..size]
}

/// A text of a MIME type, for which `INFER_MIME_SIZE` bytes of `infer.h` are room, that a call writes.
fn mime_text(write: impl FnOnce(*mut c_char, usize) -> usize) -> Vec<u8> {
    let mut out = vec![0_u8; 4096];
    let size = write(out.as_mut_ptr().cast(), out.len());
    out.truncate(size);
    out
}

/// The text of the MIME type that a text says, or nothing.
pub fn mime_parse(text: &[u8]) -> Vec<u8> {
    // SAFETY: as above, also of those below.
    mime_text(|out, size| unsafe { c::infer_mime_parse(text.as_ptr().cast(), text.len(), out, size) })
}

/// The value of its parameter with that name.
pub fn mime_parameter(text: &[u8], name: &[u8]) -> Option<Vec<u8>> {
    let mut has = false;
    let value = mime_text(|out, size| unsafe {
        c::infer_mime_parameter(text.as_ptr().cast(), text.len(), name.as_ptr().cast(), name.len(), &mut has, out, size)
    });
    has.then_some(value)
}

/// What it is taken for, or nothing.
pub fn mime_minimize(text: &[u8], is_supported: bool) -> Vec<u8> {
    mime_text(|out, size| unsafe { c::infer_mime_minimize(text.as_ptr().cast(), text.len(), is_supported, out, size) })
}

/// The text of the MIME type that values say together, or nothing.
pub fn mime_extract(value: &[u8]) -> Vec<u8> {
    mime_text(|out, size| unsafe { c::infer_mime_extract(value.as_ptr().cast(), value.len(), out, size) })
}

/// The sum of its groups.
pub fn mime_groups(text: &[u8]) -> u32 {
    // SAFETY: as above.
    unsafe { c::infer_mime_groups(text.as_ptr().cast(), text.len()) }
}

pub fn mime_is_nosniff(value: &[u8]) -> bool {
    // SAFETY: as above.
    unsafe { c::infer_mime_is_nosniff(value.as_ptr().cast(), value.len()) }
}

pub fn mime_is_blocked(value: &[u8], destination: i32) -> bool {
    // SAFETY: as above; any number may be handed over.
    unsafe { c::infer_mime_is_blocked(value.as_ptr().cast(), value.len(), destination) }
}

pub fn mime_is_old_server(value: &[u8]) -> bool {
    // SAFETY: as above.
    unsafe { c::infer_mime_is_old_server(value.as_ptr().cast(), value.len()) }
}

/// What a browser computes, or nothing.
pub fn mime_compute(content_type: &[u8], flags: u32, context: i32, buf: &[u8]) -> Vec<u8> {
    mime_text(|out, size| unsafe {
        c::infer_mime_compute(content_type.as_ptr().cast(), content_type.len(), flags, context, buf.as_ptr().cast(), buf.len(), out, size)
    })
}

pub fn mime_is_decided(content_type: &[u8], flags: u32, buf: &[u8]) -> bool {
    // SAFETY: as above.
    unsafe { c::infer_mime_is_decided(content_type.as_ptr().cast(), content_type.len(), flags, buf.as_ptr().cast(), buf.len()) }
}

/// Room for each text of a type that a text describes, `INFER_TYPES_TEXT_SIZE` of `infer.h`.
pub const TYPES_TEXT_SIZE: usize = 256;

/// A text that the library wrote, and a zero behind it.
#[derive(Copy, Clone, Eq, PartialEq, Hash)]
#[repr(transparent)]
pub struct Text<const SIZE: usize> {
    bytes: [u8; SIZE],
}

impl<const SIZE: usize> Text<SIZE> {
    const EMPTY: Text<SIZE> = Text { bytes: [0; SIZE] };

    pub fn as_str(&self) -> &str {
        let len = self.bytes.iter().position(|byte| *byte == 0).unwrap_or(self.bytes.len());
        core::str::from_utf8(&self.bytes[..len]).unwrap_or_default()
    }
}

/// The line and the column of the first mistake, and what it is, unless the text describes types.
pub fn types_mistake(text: &[u8]) -> Option<(usize, usize, Text<TEXT_SIZE>)> {
    let (mut line, mut column, mut reason) = (0, 0, Text::EMPTY);
    let (out, size) = (reason.bytes.as_mut_ptr().cast(), reason.bytes.len());
    // SAFETY: as above; the two numbers are written, and `reason` has room for as many bytes as it says.
    let wrong = unsafe { c::infer_types_check(text.as_ptr().cast(), text.len(), &mut line, &mut column, out, size) };
    (wrong > 0).then_some((line, column, reason))
}

/// The class, the MIME type and the extension of what the types of the text say.
pub fn types_get(text: &[u8], buf: &[u8]) -> Option<(MatcherType, Text<TYPES_TEXT_SIZE>, Text<TYPES_TEXT_SIZE>)> {
    let (mut mime_type, mut extension) = (Text::EMPTY, Text::EMPTY);
    // SAFETY: as above, with room for both texts.
    let code = unsafe {
        c::infer_types_get(
            text.as_ptr().cast(),
            text.len(),
            buf.as_ptr().cast(),
            buf.len(),
            mime_type.bytes.as_mut_ptr().cast(),
            mime_type.bytes.len(),
            extension.bytes.as_mut_ptr().cast(),
            extension.bytes.len(),
        )
    };
    (code >= 0).then_some((class_of(code), mime_type, extension))
}

/// The number of the line whose type `types_get` gives, from 1, or 0.
pub fn types_line(text: &[u8], buf: &[u8]) -> usize {
    // SAFETY: as above.
    unsafe { c::infer_types_line(text.as_ptr().cast(), text.len(), buf.as_ptr().cast(), buf.len()) }
}

/// `struct infer_named_type` of `infer.h`.
#[derive(Copy, Clone, Eq, PartialEq, Hash)]
#[repr(C)]
pub struct NamedTexts {
    pub mime_type: Text<TEXT_SIZE>,
    pub extension: Text<TEXT_SIZE>,
    pub is_own_name: bool,
}

impl NamedTexts {
    const EMPTY: NamedTexts = NamedTexts { mime_type: Text::EMPTY, extension: Text::EMPTY, is_own_name: false };
}

/// `struct infer_named_answer` of `infer.h`.
#[repr(C)]
pub struct NamedAnswer {
    pub standing: i32,
    pub row: i32,
    pub told: NamedTexts,
    pub name: NamedTexts,
}

/// What is odd in a name, as bits.
pub fn oddities(name: &[u8]) -> u32 {
    // SAFETY: the pointer and the length are those of a slice.
    unsafe { c::infer_oddities(name.as_ptr().cast(), name.len()) }
}

/// The answer by a name and bytes.
pub fn named(name: &[u8], buf: &[u8]) -> NamedAnswer {
    let mut answer = NamedAnswer { standing: 0, row: 0, told: NamedTexts::EMPTY, name: NamedTexts::EMPTY };
    // SAFETY: as above, and `answer` is written.
    unsafe { c::infer_named(name.as_ptr().cast(), name.len(), buf.as_ptr().cast(), buf.len(), &mut answer) };
    answer
}

/// The length of the line of a name and bytes, which is written to `out`, with a zero after it.
pub fn line(name: &[u8], buf: &[u8], out: &mut [u8]) -> usize {
    let (mut standing, mut is_known) = (0, false);
    // SAFETY: as above, with room for as many bytes as it says; the two answers are written.
    unsafe {
        c::infer_label_write(
            name.as_ptr().cast(),
            name.len(),
            buf.as_ptr().cast(),
            buf.len(),
            0,
            0,
            0,
            core::ptr::null(),
            0,
            core::ptr::null(),
            0,
            0,
            &mut standing,
            &mut is_known,
            out.as_mut_ptr().cast(),
            out.len(),
        )
    }
}

pub fn is(buf: &[u8], extension: &str) -> bool {
    // SAFETY: as above, also of the text.
    unsafe { c::infer_is(buf.as_ptr().cast(), buf.len(), extension.as_ptr().cast(), extension.len()) }
}

pub fn is_mime(buf: &[u8], mime_type: &str) -> bool {
    // SAFETY: as above.
    unsafe { c::infer_is_mime(buf.as_ptr().cast(), buf.len(), mime_type.as_ptr().cast(), mime_type.len()) }
}

pub fn is_supported(extension: &str) -> bool {
    // SAFETY: as above.
    unsafe { c::infer_is_supported(extension.as_ptr().cast(), extension.len()) }
}

pub fn is_mime_supported(mime_type: &str) -> bool {
    // SAFETY: as above.
    unsafe { c::infer_is_mime_supported(mime_type.as_ptr().cast(), mime_type.len()) }
}

/// The built-in rows, in the order in which they are asked.
pub fn rows() -> &'static [Type] {
    // SAFETY: it takes nothing.
    &all_rows()[..unsafe { c::infer_row_count() }]
}

/// The built-in rows, and then the further ones. The first call reads them, without the standard library's locks.
pub fn all_rows() -> &'static [Type] {
    static ROWS: AtomicPtr<Vec<Type>> = AtomicPtr::new(ptr::null_mut());
    let mut rows = ROWS.load(Ordering::Acquire);
    if rows.is_null() {
        let read = Box::into_raw(Box::new(read_rows()));
        rows = match ROWS.compare_exchange(ptr::null_mut(), read, Ordering::AcqRel, Ordering::Acquire) {
            Ok(_) => read,
            // Another thread was first. What this one read stays allocated, with the texts that it holds.
            Err(first) => first,
        };
    }
    // SAFETY: the pointer is that of a box, which is neither freed nor written to again.
    unsafe { &*rows }
}

/// The numbers of those of the types, which are the first rows, that have the extension.
pub fn numbered<'it>(types: &'it [Type], extension: &'it str) -> impl Iterator<Item = usize> + 'it {
    types.iter().enumerate().filter(move |(_, it)| it.extension() == extension).map(|(row, _)| row)
}

fn read_rows() -> Vec<Type> {
    // SAFETY: it takes nothing.
    let count = unsafe { c::infer_more_row_count() };
    (0..count as i32).map(|row| Type::of(class(row), text(c::infer_mime_type, row), text(c::infer_extension, row))).collect()
}

/// The row with a class and an extension, which is looked for once.
pub struct KnownRow {
    class: MatcherType,
    extension: &'static str,
    number: AtomicI32,
}

impl KnownRow {
    const UNKNOWN: i32 = -1;

    pub const fn new(class: MatcherType, extension: &'static str) -> KnownRow {
        KnownRow { class, extension, number: AtomicI32::new(KnownRow::UNKNOWN) }
    }

    pub fn accepts(&self, buf: &[u8]) -> bool {
        // SAFETY: as above; any row may be asked for.
        unsafe { c::infer_accepts(buf.as_ptr().cast(), buf.len(), self.number()) }
    }

    /// Its number. Each thread that finds it stores the same.
    fn number(&self) -> i32 {
        let mut number = self.number.load(Ordering::Relaxed);
        if number == KnownRow::UNKNOWN {
            let place = rows().iter().position(|it| it.matcher_type() == self.class && it.extension() == self.extension);
            number = place.map_or(KnownRow::UNKNOWN, |row| row as i32);
            self.number.store(number, Ordering::Relaxed);
        }
        number
    }
}

/// A text of a row, which is kept as long as the program runs.
fn text(read: unsafe extern "C" fn(i32, *mut c_char, usize) -> usize, row: i32) -> &'static str {
    // SAFETY: without room nothing is written, and the answer is the length.
    let size = unsafe { read(row, ptr::null_mut(), 0) };
    let mut out = vec![0_u8; size + 1];
    // SAFETY: `out` has room for the text and its zero.
    unsafe { read(row, out.as_mut_ptr().cast(), out.len()) };
    out.truncate(size);
    String::from_utf8(out).expect("the texts of rows are ASCII").leak()
}

fn class(row: i32) -> MatcherType {
    // SAFETY: any row may be asked for.
    class_of(unsafe { c::infer_class(row) })
}

fn class_of(code: i32) -> MatcherType {
    match code {
        0 => MatcherType::App,
        1 => MatcherType::Archive,
        2 => MatcherType::Audio,
        3 => MatcherType::Book,
        4 => MatcherType::Doc,
        5 => MatcherType::Font,
        6 => MatcherType::Image,
        7 => MatcherType::Text,
        8 => MatcherType::Video,
        _ => MatcherType::Custom,
    }
}

//! The calls of the static library. All `unsafe` is here.

use crate::Refusal;
use crate::sources::Sources;

/// The sources make packages.
pub const MADE: u8 = 0;
/// The sources are refused.
pub const REFUSED: u8 = 1;
/// The text is not UTF-8.
pub const NO_TEXT: u8 = 2;

/// A refusal, as the library writes it.
#[repr(C)]
#[derive(Default)]
struct Fields {
    rule: u8,
    placed: bool,
    start: u32,
    end: u32,
    path_len: usize,
    message_len: usize,
}

/// A call that writes a text of a text.
type Call = unsafe extern "C" fn(*const u8, usize, *mut u8, usize, *mut usize) -> u8;

// Nothing compares these with the library's own declarations. A slice is a pointer and a length.
unsafe extern "C" {
    fn wit_ffi_answer(text: *const u8, text_len: usize, buffer: *mut u8, capacity: usize, len: *mut usize) -> u8;
    fn wit_ffi_package(text: *const u8, text_len: usize, buffer: *mut u8, capacity: usize, len: *mut usize) -> u8;
    fn wit_ffi_package_of(
        bytes: *const u8,
        bytes_len: usize,
        lens: *const usize,
        lens_len: usize,
        buffer: *mut u8,
        capacity: usize,
        len: *mut usize,
    ) -> u8;
    fn wit_ffi_check(
        text: *const u8,
        text_len: usize,
        path: *mut u8,
        path_capacity: usize,
        message: *mut u8,
        message_capacity: usize,
        refusal: *mut Fields,
    ) -> u8;
    fn wit_ffi_version() -> u32;
}

/// The status of a call, and all that it writes into a buffer: a call with a buffer of this capacity, and,
/// if that is too small, a second one.
fn written(capacity: usize, call: impl Fn(&mut [u8], &mut usize) -> u8) -> (u8, Vec<u8>) {
    let mut buffer = vec![0; capacity];
    loop {
        let mut len = 0;
        let status = call(&mut buffer, &mut len);
        if len <= buffer.len() {
            buffer.truncate(len);
            return (status, buffer);
        }
        buffer.resize(len, 0);
    }
}

/// What a call writes of a text, with a first buffer of so many bytes for each byte of it.
fn of_text(call: Call, text: &[u8], factor: usize) -> (u8, Vec<u8>) {
    written(capacity(text.len(), factor), |buffer, len| {
        // SAFETY: each pointer and the length after it are of one slice, which is borrowed for the call,
        // and `buffer` and `len` mutably; pointers of slices and references are never null.
        unsafe { call(text.as_ptr(), text.len(), buffer.as_mut_ptr(), buffer.len(), len) }
    })
}

/// The capacity of a first buffer, which is seldom too small. Its zeros cost little where they are not written;
/// for a long text it is less, so that it can be had.
fn capacity(len: usize, factor: usize) -> usize {
    let most = len.saturating_mul(8).saturating_add(1 << 24);
    len.saturating_mul(factor).min(most).saturating_add(1024)
}

/// The status, and the listing or the line of the refusal.
pub fn answer(text: &[u8]) -> (u8, Vec<u8>) {
    of_text(wit_ffi_answer, text, 4)
}

/// Most JSON is shorter than so many times its text, so that sources are seldom resolved twice.
const JSON_FACTOR: usize = 32;

/// The status, and the JSON of the packages or of the refusal of a text.
pub fn package(text: &[u8]) -> (u8, Vec<u8>) {
    of_text(wit_ffi_package, text, JSON_FACTOR)
}

/// The status, and the JSON of the packages or of the refusal of sources.
pub fn package_of(sources: &Sources) -> (u8, Vec<u8>) {
    let parts: Vec<&str> = sources.iter().flat_map(|source| [&*source.path, &*source.text]).collect();
    let lens: Vec<usize> = parts.iter().map(|part| part.len()).collect();
    let bytes = parts.concat();
    written(capacity(bytes.len(), JSON_FACTOR), |buffer, len| {
        // SAFETY: as above, also of `lens`.
        unsafe { wit_ffi_package_of(bytes.as_ptr(), bytes.len(), lens.as_ptr(), lens.len(), buffer.as_mut_ptr(), buffer.len(), len) }
    })
}

/// The library's version: major, minor and patch in one number.
pub fn version() -> u32 {
    // SAFETY: the call takes nothing and touches no memory.
    unsafe { wit_ffi_version() }
}

/// A refusal with its path and its message.
pub struct Plain {
    fields: Fields,
    path: Vec<u8>,
    message: Vec<u8>,
}

impl Plain {
    /// The refusal. Path and message are UTF-8, since both are made of the text.
    pub fn refusal(self) -> Refusal {
        let text = |bytes| String::from_utf8(bytes).unwrap_or_default();
        Refusal {
            rule: self.fields.rule,
            path: self.fields.placed.then(|| text(self.path)),
            span: self.fields.start as usize..self.fields.end as usize,
            message: text(self.message),
        }
    }
}

/// The status, and the fields of the refusal.
pub fn check(text: &[u8]) -> (u8, Plain) {
    let mut path = vec![0; 256];
    let mut message = vec![0; 256];
    loop {
        let mut fields = Fields::default();
        // SAFETY: as above; `path`, `message` and `fields` are borrowed mutably, and hold values.
        let status = unsafe {
            wit_ffi_check(text.as_ptr(), text.len(), path.as_mut_ptr(), path.len(), message.as_mut_ptr(), message.len(), &raw mut fields)
        };
        if fields.path_len <= path.len() && fields.message_len <= message.len() {
            path.truncate(fields.path_len);
            message.truncate(fields.message_len);
            return (status, Plain { fields, path, message });
        }
        path.resize(fields.path_len.max(path.len()), 0);
        message.resize(fields.message_len.max(message.len()), 0);
    }
}

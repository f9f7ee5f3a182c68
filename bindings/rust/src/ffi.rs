//! The interface of the C library, and the memory that it takes. All `unsafe` code of the crate is here.

use crate::Span;
use std::alloc::{handle_alloc_error, Layout};
use std::ffi::c_void;
use std::fmt;
use std::mem::{offset_of, size_of};
use std::ops::Deref;
use std::ptr::NonNull;
use std::slice;
use std::str;

#[cfg(not(all(target_pointer_width = "64", target_endian = "little")))]
compile_error!("the library is for 64 bits, the least byte first");

/// The version of the interface that this crate is written for.
const VERSION: u32 = 1;

const OK: u32 = 0;
const REFUSED: u32 = 1;
const OUT_OF_MEMORY: u32 = 2;

/// How a pattern is read, and what is wanted of it.
#[derive(Clone, Copy)]
#[repr(C)]
pub struct Options {
    pub form: u32,
    pub pattern_offset: u32,
    pub flags_offset: u32,
    pub has_flags: bool,
    pub duplicate_names: bool,
    pub buffer_boundaries: bool,
    pub standard_strings: bool,
    pub utf16: bool,
    pub nodes: bool,
    pub spelling: bool,
    pub spare: bool,
}

/// A node of a tree. What nodes of its type do not have is 0, false or empty.
#[derive(Clone, Copy, Debug, PartialEq, Eq)]
#[repr(C)]
pub struct Record {
    pub node_type: u8,
    pub kind: u8,
    pub enabling: u8,
    pub disabling: u8,
    pub negative: bool,
    pub strings: bool,
    pub greedy: bool,
    pub has_max: bool,
    pub has_name: bool,
    pub has_property_value: bool,
    pub has_modifiers: bool,
    pub spare: bool,
    /// The value of a character, the index of a reference, or the number of a capturing group.
    pub number: u32,
    pub span: Span,
    pub children: u32,
    /// The index of the record after this one and all that stand in it.
    pub next: u32,
    pub modifiers: Span,
    /// Bytes of the texts, as `property_value` is.
    pub name: Span,
    pub property_value: Span,
    pub min: u64,
    pub max: u64,
}

/// So many items at a place. An empty one says nothing of its place.
#[repr(C)]
struct Slice<T> {
    at: *mut T,
    size: usize,
}

impl<T> Slice<T> {
    /// The library takes no null pointer.
    const EMPTY: Slice<T> = Slice { at: NonNull::dangling().as_ptr(), size: 0 };
}

#[repr(C)]
struct Refusal {
    name: Slice<u8>,
    kind: Slice<u8>,
    message: Slice<u8>,
    help: Slice<u8>,
    values: Slice<Span>,
    field: u32,
    span_count: u32,
    max: u32,
    spare: u32,
    first: Span,
    second: Span,
}

#[repr(C)]
struct Reading {
    mode: u32,
    spare: u32,
    nodes: Slice<Record>,
    groups: Slice<u32>,
    texts: Slice<u8>,
    spelling: Slice<u8>,
    refusal: Refusal,
}

const _: () = {
    assert!(size_of::<Span>() == 8 && offset_of!(Span, end) == 4);
    assert!(size_of::<Options>() == 20);
    assert!(offset_of!(Options, has_flags) == 12 && offset_of!(Options, spare) == 19);
    assert!(size_of::<Record>() == 72);
    assert!(offset_of!(Record, spare) == 11 && offset_of!(Record, number) == 12);
    assert!(offset_of!(Record, span) == 16 && offset_of!(Record, children) == 24);
    assert!(offset_of!(Record, next) == 28 && offset_of!(Record, modifiers) == 32);
    assert!(offset_of!(Record, name) == 40 && offset_of!(Record, property_value) == 48);
    assert!(offset_of!(Record, min) == 56 && offset_of!(Record, max) == 64);
    assert!(size_of::<Slice<u8>>() == 16 && offset_of!(Slice<u8>, size) == 8);
    assert!(size_of::<Refusal>() == 112);
    assert!(offset_of!(Refusal, kind) == 16 && offset_of!(Refusal, message) == 32);
    assert!(offset_of!(Refusal, help) == 48 && offset_of!(Refusal, values) == 64);
    assert!(offset_of!(Refusal, field) == 80 && offset_of!(Refusal, span_count) == 84);
    assert!(offset_of!(Refusal, max) == 88 && offset_of!(Refusal, first) == 96);
    assert!(offset_of!(Refusal, second) == 104);
    assert!(size_of::<Reading>() == 184);
    assert!(offset_of!(Reading, nodes) == 8 && offset_of!(Reading, groups) == 24);
    assert!(offset_of!(Reading, texts) == 40 && offset_of!(Reading, spelling) == 56);
    assert!(offset_of!(Reading, refusal) == 72);
};

extern "C" {
    fn tb_version() -> u32;
    fn tb_read(
        pattern: *const u8,
        pattern_size: usize,
        flags: *const u8,
        flags_size: usize,
        options: *const Options,
        out: *mut Reading,
    ) -> u32;

    fn malloc(size: usize) -> *mut c_void;
    fn realloc(at: *mut c_void, size: usize) -> *mut c_void;
    fn free(at: *mut c_void);
}

/// What the library answered. Each block is owned.
pub enum Answer {
    Read(Tree),
    Refused(Refused),
    OutOfMemory,
    BadArgument,
}

/// A pattern that was read.
#[derive(Clone, PartialEq, Eq)]
pub struct Tree {
    pub mode: u32,
    pub nodes: Block<Record>,
    pub groups: Block<u32>,
    /// Names and values of the nodes.
    pub texts: Text,
    pub spelling: Text,
}

/// Why a pattern was refused.
#[derive(Clone, PartialEq, Eq)]
pub struct Refused {
    pub name: Text,
    pub kind: Text,
    pub message: Text,
    pub help: Text,
    /// Bytes of the texts.
    pub values: Block<Span>,
    pub texts: Text,
    pub field: u32,
    pub span_count: u32,
    pub max: u32,
    pub first: Span,
    pub second: Span,
}

/// Reads a pattern.
pub fn read(pattern: &str, flags: &str, options: &Options) -> Answer {
    // SAFETY: it takes nothing, and gives a number.
    require_version(unsafe { tb_version() });
    let mut out = Reading::empty();
    // SAFETY: no pointer of a reference is null, each comes with its size, and `out` is a reading that holds nothing.
    let status = unsafe {
        tb_read(pattern.as_ptr(), pattern.len(), flags.as_ptr(), flags.len(), options, &mut out)
    };
    // SAFETY: it was set by the call.
    unsafe { out.answer(status) }
}

fn require_version(found: u32) {
    assert_eq!(found, VERSION, "the library librx_c.a and this crate do not belong together");
}

impl Reading {
    const fn empty() -> Reading {
        Reading {
            mode: 0,
            spare: 0,
            nodes: Slice::EMPTY,
            groups: Slice::EMPTY,
            texts: Slice::EMPTY,
            spelling: Slice::EMPTY,
            refusal: Refusal {
                name: Slice::EMPTY,
                kind: Slice::EMPTY,
                message: Slice::EMPTY,
                help: Slice::EMPTY,
                values: Slice::EMPTY,
                field: 0,
                span_count: 0,
                max: 0,
                spare: 0,
                first: Span { start: 0, end: 0 },
                second: Span { start: 0, end: 0 },
            },
        }
    }

    /// # Safety
    ///
    /// It is what `tb_read` set when it returned this status.
    unsafe fn answer(self, status: u32) -> Answer {
        // SAFETY: the library gives each block to its caller, and its texts are UTF-8.
        unsafe {
            match status {
                OK => Answer::Read(Tree {
                    mode: self.mode,
                    nodes: Block::own(self.nodes),
                    groups: Block::own(self.groups),
                    texts: Text::own(self.texts),
                    spelling: Text::own_before_nul(self.spelling),
                }),
                REFUSED => Answer::Refused(self.refusal.own(self.texts)),
                OUT_OF_MEMORY => Answer::OutOfMemory,
                _ => Answer::BadArgument,
            }
        }
    }
}

impl Refusal {
    /// # Safety
    ///
    /// As of [`Reading::answer`]; the texts are those of the same reading.
    unsafe fn own(self, texts: Slice<u8>) -> Refused {
        // SAFETY: the library gives each block to its caller, and its texts are UTF-8.
        unsafe {
            Refused {
                name: Text::own_before_nul(self.name),
                kind: Text::own_before_nul(self.kind),
                message: Text::own_before_nul(self.message),
                help: Text::own_before_nul(self.help),
                values: Block::own(self.values),
                texts: Text::own(texts),
                field: self.field,
                span_count: self.span_count,
                max: self.max,
                first: self.first,
                second: self.second,
            }
        }
    }
}

/// Items in a block of `malloc`, which it owns. Without items there is no block.
pub struct Block<T> {
    at: NonNull<T>,
    len: usize,
}

impl<T> Block<T> {
    /// # Safety
    ///
    /// Where the slice is not empty, it is the beginning of a block of `malloc` that nobody else frees or writes to, and its items are values of their type.
    unsafe fn own(slice: Slice<T>) -> Block<T> {
        if slice.size == 0 {
            return Block::empty();
        }
        Block {
            // SAFETY: a block of `malloc` is not at null.
            at: unsafe { NonNull::new_unchecked(slice.at) },
            len: slice.size,
        }
    }

    const fn empty() -> Block<T> {
        Block { at: NonNull::dangling(), len: 0 }
    }
}

impl<T> Deref for Block<T> {
    type Target = [T];

    fn deref(&self) -> &[T] {
        // SAFETY: so many items stand in the block, and nobody writes to it; the pointer of an empty slice may dangle.
        unsafe { slice::from_raw_parts(self.at.as_ptr(), self.len) }
    }
}

impl<T> Drop for Block<T> {
    fn drop(&mut self) {
        if self.len > 0 {
            // SAFETY: it is a block of `malloc` that nobody else frees.
            unsafe { release(self.at.as_ptr().cast()) }
        }
    }
}

impl<T: Copy> Clone for Block<T> {
    fn clone(&self) -> Block<T> {
        if self.len == 0 {
            return Block::empty();
        }
        let layout = Layout::for_value::<[T]>(self);
        let at = take(layout.size()).cast::<T>();
        let at = NonNull::new(at).unwrap_or_else(|| handle_alloc_error(layout));
        // SAFETY: the new block has room for as many items, and is another one.
        unsafe { at.as_ptr().copy_from_nonoverlapping(self.at.as_ptr(), self.len) }
        Block { at, len: self.len }
    }
}

impl<T: PartialEq> PartialEq for Block<T> {
    fn eq(&self, other: &Block<T>) -> bool {
        **self == **other
    }
}

impl<T: Eq> Eq for Block<T> {}

impl<T: fmt::Debug> fmt::Debug for Block<T> {
    fn fmt(&self, f: &mut fmt::Formatter<'_>) -> fmt::Result {
        fmt::Debug::fmt(&**self, f)
    }
}

// SAFETY: it owns its items as a `Vec` does.
unsafe impl<T: Send> Send for Block<T> {}
// SAFETY: by a shared reference they are only read.
unsafe impl<T: Sync> Sync for Block<T> {}

/// UTF-8 in a block of `malloc`, of which the first bytes count.
#[derive(Clone)]
pub struct Text {
    bytes: Block<u8>,
    len: usize,
}

impl Text {
    /// # Safety
    ///
    /// As of [`Block::own`], and the bytes are UTF-8.
    unsafe fn own(slice: Slice<u8>) -> Text {
        let len = slice.size;
        // SAFETY: the caller says so.
        let bytes = unsafe { Block::own(slice) };
        Text { bytes, len }
    }

    /// The text without the NUL that ends it; an empty one has none.
    ///
    /// # Safety
    ///
    /// As of [`Text::own`].
    unsafe fn own_before_nul(slice: Slice<u8>) -> Text {
        let len = slice.size.saturating_sub(1);
        // SAFETY: the caller says so.
        let bytes = unsafe { Block::own(slice) };
        Text { bytes, len }
    }
}

impl Deref for Text {
    type Target = str;

    fn deref(&self) -> &str {
        // SAFETY: the bytes are UTF-8, and what is left out is one NUL.
        unsafe { str::from_utf8_unchecked(&self.bytes[..self.len]) }
    }
}

impl PartialEq for Text {
    fn eq(&self, other: &Text) -> bool {
        **self == **other
    }
}

impl Eq for Text {}

impl fmt::Debug for Text {
    fn fmt(&self, f: &mut fmt::Formatter<'_>) -> fmt::Result {
        fmt::Debug::fmt(&**self, f)
    }
}

/// What the library gets where it asks for memory: where there is none, `ok` is false, and the pointer is not null.
#[repr(C)]
struct Room {
    ok: bool,
    at: NonNull<c_void>,
}

fn room(at: *mut c_void) -> Room {
    match NonNull::new(at) {
        Some(at) => Room { ok: true, at },
        None => Room { ok: false, at: NonNull::<u128>::dangling().cast() },
    }
}

/// A block of `malloc`, or null.
fn take(size: usize) -> *mut c_void {
    #[cfg(test)]
    if !tests::may_take() {
        return std::ptr::null_mut();
    }
    // SAFETY: it takes any size.
    let at = unsafe { malloc(size) };
    #[cfg(test)]
    tests::count(i64::from(!at.is_null()));
    at
}

/// # Safety
///
/// It is a block of [`take`] that nobody else frees.
unsafe fn release(at: *mut c_void) {
    #[cfg(test)]
    tests::count(-1);
    // SAFETY: the caller says so.
    unsafe { free(at) }
}

#[no_mangle]
extern "C" fn rattle_alloc(size: usize, align: usize) -> Room {
    room(take(if size > 0 { size } else { align }))
}

/// # Safety
///
/// It is a block of `rattle_alloc` that is still there.
#[no_mangle]
unsafe extern "C" fn rattle_realloc(
    at: *mut c_void,
    _kept: usize,
    size: usize,
    align: usize,
) -> Room {
    #[cfg(test)]
    if !tests::may_take() {
        return room(std::ptr::null_mut());
    }
    // SAFETY: the caller says so; where there is no room, the block stays.
    room(unsafe { realloc(at, if size > 0 { size } else { align }) })
}

/// # Safety
///
/// It is a block of `rattle_alloc` that nobody else frees.
#[no_mangle]
unsafe extern "C" fn rattle_dealloc(at: *mut c_void) {
    // SAFETY: the caller says so.
    unsafe { release(at) }
}

#[cfg(test)]
mod tests;

//! The calls of the library for C, and what a handle holds.
use crate::error::{call_refused, out_of_memory, words, LiquidError, Location, Origin};
use crate::error::{BYTES_REACHED, TURNS_REACHED};
use std::cell::UnsafeCell;
use std::ffi::c_void;

/// A place that holds nothing, or owns what it points to.
#[repr(C)]
pub(crate) struct Handle {
    there: bool,
    at: *mut c_void,
}

/// What a run is allowed: 0 levels for as many as are usual, and the greatest number for any number of bytes or turns. A missing value is
/// a fault by 0, and nil by 1.
#[repr(C)]
#[derive(Clone, Copy, Debug, PartialEq, Eq)]
pub(crate) struct RawLimits {
    pub(crate) levels: u32,
    pub(crate) missing: u32,
    pub(crate) bytes: u64,
    pub(crate) turns: u64,
}

impl Default for RawLimits {
    fn default() -> RawLimits {
        RawLimits { levels: 0, missing: 0, bytes: u64::MAX, turns: u64::MAX }
    }
}

extern "C" {
    pub(crate) fn bikleinu_language(made: *mut Handle) -> u32;
    pub(crate) fn bikleinu_parse(language: *mut Handle, source: *const u8, length: usize, made: *mut Handle) -> u32;
    pub(crate) fn bikleinu_data(json: *const u8, length: usize, made: *mut Handle) -> u32;
    pub(crate) fn bikleinu_partials(made: *mut Handle) -> u32;
    pub(crate) fn bikleinu_insert(partials: *mut Handle, name: *const u8, length: usize, template: *mut Handle) -> u32;
    pub(crate) fn bikleinu_render_within(
        template: *mut Handle,
        data: *mut Handle,
        partials: *mut Handle,
        depth: u32,
        limits: *const RawLimits,
        page: *mut Handle,
    ) -> u32;
    pub(crate) fn bikleinu_jekyll_language(made: *mut Handle) -> u32;
    pub(crate) fn bikleinu_register(language: *mut Handle, name: *const u8, length: usize, least: usize, most: usize) -> u32;
    pub(crate) fn bikleinu_register_jekyll(language: *mut Handle) -> u32;
    pub(crate) fn bikleinu_register_tag_given(
        language: *mut Handle,
        name: *const u8,
        length: usize,
        filter: *const u8,
        filter_length: usize,
        style: u32,
        given: *const u8,
        given_length: usize,
    ) -> u32;
    pub(crate) fn bikleinu_register_block_given(
        language: *mut Handle,
        name: *const u8,
        length: usize,
        filter: *const u8,
        filter_length: usize,
        style: u32,
        given: *const u8,
        given_length: usize,
    ) -> u32;
    pub(crate) fn bikleinu_escape_html(language: *mut Handle) -> u32;
    pub(crate) fn bikleinu_set_language(set: u32, made: *mut Handle) -> u32;
    pub(crate) fn bikleinu_answers_set(answers: *mut Handle, set: u32, data: *mut Handle) -> u32;
    pub(crate) fn bikleinu_seen_key(json: *const u8, length: usize, paths: *mut Handle, made: *mut Handle) -> u32;
    pub(crate) fn bikleinu_names(template: *mut Handle, partials: *mut Handle, made: *mut Handle) -> u32;
    pub(crate) fn bikleinu_paths(template: *mut Handle, partials: *mut Handle, made: *mut Handle) -> u32;
    pub(crate) fn bikleinu_data_for(json: *const u8, length: usize, paths: *mut Handle, made: *mut Handle) -> u32;
    pub(crate) fn bikleinu_share(handle: *mut Handle, made: *mut Handle) -> u32;
    pub(crate) fn bikleinu_answers(made: *mut Handle) -> u32;
    pub(crate) fn bikleinu_answers_filter(answers: *mut Handle, name: *const u8, length: usize) -> u32;
    pub(crate) fn bikleinu_answers_jekyll(
        answers: *mut Handle,
        address: *const u8,
        address_length: usize,
        base: *const u8,
        base_length: usize,
    ) -> u32;
    pub(crate) fn bikleinu_render_with(
        template: *mut Handle,
        data: *mut Handle,
        partials: *mut Handle,
        depth: u32,
        limits: *const RawLimits,
        answers: *mut Handle,
        page: *mut Handle,
    ) -> u32;
    pub(crate) fn bikleinu_answer(answers: *mut Handle, calls: *mut Handle, number: usize, data: *mut Handle) -> u32;
    pub(crate) fn bikleinu_refuse(
        answers: *mut Handle,
        calls: *mut Handle,
        number: usize,
        kind: u32,
        message: *const u8,
        length: usize,
    ) -> u32;
    fn bikleinu_length(handle: *mut Handle, part: u32) -> usize;
    fn bikleinu_copy(handle: *mut Handle, part: u32, into: *mut u8, room: usize) -> usize;
    fn bikleinu_location(handle: *mut Handle, line: *mut usize, column: *mut usize) -> u32;
    fn bikleinu_free(handle: *mut Handle);
}

pub(crate) const TEXT: u32 = 0;
const MESSAGE: u32 = 1;
const NAME: u32 = 2;
const PARTIAL: u32 = 3;

/// What a handle holds, which is freed with it.
///
/// A call may change a handle while it runs, also one that it only reads. So an owner isn't shared by threads ([`Shared`](crate::shared::Shared)
/// is), and no call begins in one thread while another of the same handle runs there: none of them calls back.
pub(crate) struct Owner(UnsafeCell<Handle>);

// SAFETY: what a handle owns is plain data of its own, on the heap of the C library. It refers to nothing that stays behind in a
// thread.
unsafe impl Send for Owner {}

impl Owner {
    pub(crate) fn new() -> Owner {
        Owner(UnsafeCell::new(Handle { there: false, at: std::ptr::null_mut() }))
    }

    pub(crate) fn at(&self) -> *mut Handle {
        self.0.get()
    }

    /// Whether it holds nothing.
    pub(crate) fn is_empty(&self) -> bool {
        // SAFETY: the handle is this owner's, and no call has it now.
        unsafe { !(*self.at()).there }
    }

    /// A part of what it holds, which may be long.
    pub(crate) fn part(&self, part: u32) -> Result<String, LiquidError> {
        // SAFETY: the handle is this owner's.
        let length = unsafe { bikleinu_length(self.at(), part) };
        let mut bytes = Vec::new();
        bytes.try_reserve_exact(length).map_err(|_| out_of_memory())?;
        bytes.resize(length, 0);
        // SAFETY: the handle is this owner's, and the bytes have the room that is passed.
        let count = unsafe { bikleinu_copy(self.at(), part, bytes.as_mut_ptr(), length) };
        bytes.truncate(count);
        let text = String::from_utf8(bytes);
        Ok(text.unwrap_or_else(|error| String::from_utf8_lossy(error.as_bytes()).into_owned()))
    }

    /// A part of a fault, which is short; none of it where there is no memory for it.
    fn words(&self, part: u32) -> String {
        self.part(part).unwrap_or_default()
    }

    fn location(&self) -> Option<Location> {
        let (mut line, mut column) = (0, 0);
        let (at_line, at_column) = (std::ptr::addr_of_mut!(line), std::ptr::addr_of_mut!(column));
        // SAFETY: the handle is this owner's, and the other two are places for a number.
        let origin = match unsafe { bikleinu_location(self.at(), at_line, at_column) } {
            1 => Origin::Template,
            2 => Origin::Partial(self.part(PARTIAL).ok()?),
            3 => Origin::Data,
            _ => return None,
        };
        Some(Location { origin, line, column })
    }

    fn name(&self, number: u32) -> String {
        match number {
            BYTES_REACHED => words("BytesReached"),
            TURNS_REACHED => words("TurnsReached"),
            _ => self.words(NAME),
        }
    }

    /// The fault of a call that answered the number and put it here.
    pub(crate) fn fault(&self, number: u32) -> LiquidError {
        call_refused(number).unwrap_or_else(|| {
            LiquidError::new(number, self.name(number), self.words(MESSAGE), self.location())
        })
    }

    /// The same, where the call that made it answered that all is well.
    pub(crate) fn settled(self, number: u32) -> Result<Owner, LiquidError> {
        match number {
            0 => Ok(self),
            _ => Err(self.fault(number)),
        }
    }
}

impl Drop for Owner {
    fn drop(&mut self) {
        // SAFETY: the handle is this owner's, and is never used again.
        unsafe { bikleinu_free(self.at()) }
    }
}

//! The coding library for programs in Rust: safe functions over `libcoding.a`. Include this file as a module, and link
//! with `-L native=PREFIX/lib -l static=coding`. `coding.h` beside it says what each function does.
#![allow(dead_code)] // a program calls some of these

use std::ffi::{c_char, CStr};
use std::fmt;
use std::marker::PhantomData;

/// The longest value, in bytes.
pub const LONGEST_VALUE: usize = 16_777_216;

/// One fragment of several.
#[repr(C)]
#[derive(Clone, Copy)]
pub struct Fragment<'a> {
    bytes: *const u8,
    length: usize,
    lent: PhantomData<&'a [u8]>,
}

impl<'a> From<&'a [u8]> for Fragment<'a> {
    fn from(bytes: &'a [u8]) -> Fragment<'a> {
        Fragment { bytes: bytes.as_ptr(), length: bytes.len(), lent: PhantomData }
    }
}

/// Why a call was refused; it then changed nothing. It prints as its number and its name.
#[derive(Clone, Copy, Debug, PartialEq, Eq)]
pub struct Refused(pub u8);

impl fmt::Display for Refused {
    fn fmt(&self, f: &mut fmt::Formatter<'_>) -> fmt::Result {
        let mut text = Fragment::from([].as_slice());
        // The text ends with a zero byte and lasts as long as the program.
        let text = unsafe {
            coding_text(self.0, &mut text);
            CStr::from_ptr(text.bytes.cast())
        };
        f.write_str(&text.to_string_lossy())
    }
}

impl std::error::Error for Refused {}

extern "C" {
    fn coding_fragment_length(k: u8, value_length: usize, length: &mut usize) -> u8;
    fn coding_encode(k: u8, n: u8, value: *const u8, value_length: usize, out: *mut u8, out_length: usize) -> u8;
    fn coding_encode_one(k: u8, point: u8, value: *const u8, value_length: usize, out: *mut u8, out_length: usize)
        -> u8;
    fn coding_decode(k: u8, points: *const u8, point_count: usize, fragments: *const Fragment<'_>,
        fragment_count: usize, value: *mut u8, value_length: usize) -> u8;
    fn coding_repair(k: u8, points: *const u8, point_count: usize, fragments: *const Fragment<'_>,
        fragment_count: usize, point: u8, value: *mut u8, value_length: usize, out: *mut u8, out_length: usize) -> u8;
    fn coding_repair_fragment(k: u8, points: *const u8, point_count: usize, fragments: *const Fragment<'_>,
        fragment_count: usize, point: u8, value_length: usize, out: *mut u8, out_length: usize) -> u8;
    fn coding_text(answer: u8, text: &mut Fragment<'static>);
    fn coding_processor() -> *const c_char;
}

fn result(answer: u8) -> Result<(), Refused> {
    if answer == 0 { Ok(()) } else { Err(Refused(answer)) }
}

/// The length of each fragment of a value.
pub fn fragment_length(k: u8, value_length: usize) -> Result<usize, Refused> {
    let mut length = 0;
    result(unsafe { coding_fragment_length(k, value_length, &mut length) })?;
    Ok(length)
}

/// Writes the fragments at the points 0 to n - 1 to `out`, one after another.
pub fn encode(k: u8, n: u8, value: &[u8], out: &mut [u8]) -> Result<(), Refused> {
    result(unsafe { coding_encode(k, n, value.as_ptr(), value.len(), out.as_mut_ptr(), out.len()) })
}

/// Writes the fragment at one point to `out`.
pub fn encode_one(k: u8, point: u8, value: &[u8], out: &mut [u8]) -> Result<(), Refused> {
    result(unsafe { coding_encode_one(k, point, value.as_ptr(), value.len(), out.as_mut_ptr(), out.len()) })
}

/// Writes the value that has these fragments at these points to `value`, which must have the value's length.
pub fn decode(k: u8, points: &[u8], fragments: &[Fragment<'_>], value: &mut [u8]) -> Result<(), Refused> {
    result(unsafe {
        coding_decode(k, points.as_ptr(), points.len(), fragments.as_ptr(), fragments.len(), value.as_mut_ptr(),
            value.len())
    })
}

/// Writes the value to `value`, as `decode` does, and the value's fragment at `point` to `out`.
pub fn repair(k: u8, points: &[u8], fragments: &[Fragment<'_>], point: u8, value: &mut [u8], out: &mut [u8])
    -> Result<(), Refused>
{
    result(unsafe {
        coding_repair(k, points.as_ptr(), points.len(), fragments.as_ptr(), fragments.len(), point,
            value.as_mut_ptr(), value.len(), out.as_mut_ptr(), out.len())
    })
}

/// Writes the fragment at `point` to `out`, of the value of `value_length` bytes that has these fragments, without the
/// value.
pub fn repair_fragment(k: u8, points: &[u8], fragments: &[Fragment<'_>], point: u8, value_length: usize,
    out: &mut [u8]) -> Result<(), Refused>
{
    result(unsafe {
        coding_repair_fragment(k, points.as_ptr(), points.len(), fragments.as_ptr(), fragments.len(), point,
            value_length, out.as_mut_ptr(), out.len())
    })
}

/// The level of the processor whose functions are used: `x86-64-v2` or `x86-64-v3`.
pub fn processor() -> &'static str {
    let text = unsafe { CStr::from_ptr(coding_processor()) };
    text.to_str().unwrap_or_default()
}

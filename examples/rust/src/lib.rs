//! The check of a shader module, in process: [`check`] of the bytes of a document, [`check_spirv`] of those of SPIR-V, [`check_wgsl`] of a
//! text of WGSL, and the other forms of answer beside them.

use std::error::Error;
use std::fmt;

/// What a module was found to be, each with the text of `shader-check`: by [`check`], [`check_spirv`] and [`check_wgsl`] the verdict's
/// line, and of an accepted one the report.
#[derive(Clone, Debug, PartialEq, Eq)]
pub enum Verdict {
    Accepted(String),
    Refused(String),
    /// Only of SPIR-V and WGSL: there is no module, or one that says what is not translated. The text says what, and at which word, or
    /// line and column.
    Unread(String),
}

impl Verdict {
    /// The text.
    pub fn text(&self) -> &str {
        match self {
            Verdict::Accepted(text) | Verdict::Refused(text) | Verdict::Unread(text) => text,
        }
    }
}

/// Memory was refused.
#[derive(Clone, Copy, Debug, PartialEq, Eq)]
pub struct NoMemory;

impl fmt::Display for NoMemory {
    fn fmt(&self, f: &mut fmt::Formatter<'_>) -> fmt::Result {
        f.write_str("out of memory")
    }
}

impl Error for NoMemory {}

type Call = unsafe extern "C" fn(*const u8, usize, *mut u8, usize, *mut usize) -> u32;

extern "C" {
    fn shader_check_version() -> u32;
    fn shader_check(document: *const u8, length: usize, text: *mut u8, capacity: usize, needed: *mut usize) -> u32;
    fn shader_check_json(document: *const u8, length: usize, text: *mut u8, capacity: usize, needed: *mut usize) -> u32;
    fn shader_check_leaves(document: *const u8, length: usize, text: *mut u8, capacity: usize, needed: *mut usize) -> u32;
    fn shader_check_spirv(spirv: *const u8, length: usize, text: *mut u8, capacity: usize, needed: *mut usize) -> u32;
    fn shader_check_spirv_json(spirv: *const u8, length: usize, text: *mut u8, capacity: usize, needed: *mut usize) -> u32;
    fn shader_check_spirv_leaves(spirv: *const u8, length: usize, text: *mut u8, capacity: usize, needed: *mut usize) -> u32;
    fn shader_check_spirv_document(spirv: *const u8, length: usize, text: *mut u8, capacity: usize, needed: *mut usize) -> u32;
    fn shader_check_wgsl(wgsl: *const u8, length: usize, text: *mut u8, capacity: usize, needed: *mut usize) -> u32;
    fn shader_check_wgsl_json(wgsl: *const u8, length: usize, text: *mut u8, capacity: usize, needed: *mut usize) -> u32;
    fn shader_check_wgsl_leaves(wgsl: *const u8, length: usize, text: *mut u8, capacity: usize, needed: *mut usize) -> u32;
    fn shader_check_wgsl_document(wgsl: *const u8, length: usize, text: *mut u8, capacity: usize, needed: *mut usize) -> u32;
}

// One call with so much room. Answers the status, the bytes that were written, and how many the whole text has.
fn call(check: Call, module: &[u8], capacity: usize) -> (u32, Vec<u8>, usize) {
    let mut text = vec![0; capacity];
    let mut needed = 0;
    // SAFETY: the pointers are those of slices that live through the call.
    let status = unsafe { check(module.as_ptr(), module.len(), text.as_mut_ptr(), text.len(), &mut needed) };
    text.truncate(needed);
    (status, text, needed)
}

// With as much room as the text takes.
fn verdict(check: Call, module: &[u8]) -> Result<Verdict, NoMemory> {
    let (mut status, mut text, needed) = call(check, module, 256);
    if text.len() < needed {
        (status, text, _) = call(check, module, needed);
    }
    let text = String::from_utf8_lossy(&text).into_owned();
    match status {
        0 => Ok(Verdict::Accepted(text)),
        1 => Ok(Verdict::Refused(text)),
        3 => Ok(Verdict::Unread(text)),
        _ => Err(NoMemory),
    }
}

/// The version of the library that is linked: major, minor and patch number.
pub fn version() -> (u32, u32, u32) {
    // SAFETY: it takes nothing.
    let number = unsafe { shader_check_version() };
    (number >> 16, number >> 8 & 255, number & 255)
}

/// Judges a document: the text is that of `./shader-check`.
pub fn check(document: &[u8]) -> Result<Verdict, NoMemory> {
    verdict(shader_check, document)
}

/// Judges a document: the text is the object of `./shader-check --json`.
pub fn check_json(document: &[u8]) -> Result<Verdict, NoMemory> {
    verdict(shader_check_json, document)
}

/// Judges a document: the text is that of `./shader-check --leaves`.
pub fn check_leaves(document: &[u8]) -> Result<Verdict, NoMemory> {
    verdict(shader_check_leaves, document)
}

/// Judges a module of SPIR-V: the text is that of `./shader-check --spirv`.
pub fn check_spirv(spirv: &[u8]) -> Result<Verdict, NoMemory> {
    verdict(shader_check_spirv, spirv)
}

/// Judges a module of SPIR-V: the text is the object of `./shader-check --spirv --json`.
pub fn check_spirv_json(spirv: &[u8]) -> Result<Verdict, NoMemory> {
    verdict(shader_check_spirv_json, spirv)
}

/// Judges a module of SPIR-V: the text is that of `./shader-check --spirv --leaves`.
pub fn check_spirv_leaves(spirv: &[u8]) -> Result<Verdict, NoMemory> {
    verdict(shader_check_spirv_leaves, spirv)
}

/// Judges a text of WGSL: the text is that of `./shader-check --wgsl`.
pub fn check_wgsl(wgsl: &[u8]) -> Result<Verdict, NoMemory> {
    verdict(shader_check_wgsl, wgsl)
}

/// Judges a text of WGSL: the text is the object of `./shader-check --wgsl --json`.
pub fn check_wgsl_json(wgsl: &[u8]) -> Result<Verdict, NoMemory> {
    verdict(shader_check_wgsl_json, wgsl)
}

/// Judges a text of WGSL: the text is that of `./shader-check --wgsl --leaves`.
pub fn check_wgsl_leaves(wgsl: &[u8]) -> Result<Verdict, NoMemory> {
    verdict(shader_check_wgsl_leaves, wgsl)
}

// The document that a module says, or why no module was read.
fn document(check: Call, module: &[u8]) -> Result<Result<String, String>, NoMemory> {
    match verdict(check, module)? {
        Verdict::Accepted(document) => Ok(Ok(document)),
        Verdict::Refused(why) | Verdict::Unread(why) => Ok(Err(why)),
    }
}

/// The document that a module of SPIR-V says, not judged: `Ok(Ok(document))`, or `Ok(Err(why))` where no module was read.
pub fn document_of_spirv(spirv: &[u8]) -> Result<Result<String, String>, NoMemory> {
    document(shader_check_spirv_document, spirv)
}

/// The same of a text of WGSL.
pub fn document_of_wgsl(wgsl: &[u8]) -> Result<Result<String, String>, NoMemory> {
    document(shader_check_wgsl_document, wgsl)
}

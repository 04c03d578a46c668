//! The stage's library, called through its C interface.

#[cfg(library)]
#[path = "../../interface/scope_deps.rs"]
pub mod interface;

use crate::operation::Operation;

/// An implementation of the operations with the results of the C interface: the length
/// written, or minus the number of the refusal.
pub trait Stage {
    fn call(&mut self, operation: Operation, job: &[u8], out: &mut [u8]) -> i64;
}

/// Why the library cannot be called, if it cannot.
pub fn absent() -> Option<&'static str> {
    Some(env!("LIBRARY_ABSENT")).filter(|why| !why.is_empty())
}

pub struct Library(());

impl Library {
    pub fn open() -> Result<Self, &'static str> {
        absent().map_or(Ok(Self(())), Err)
    }
}

/// An operation as the C interface has it.
pub type Function = unsafe extern "C" fn(*const u8, usize, *mut u8, usize) -> i64;

/// The library's function of an operation.
#[cfg(library)]
pub fn function(operation: Operation) -> Function {
    match operation {
        Operation::Answer => interface::scope_deps_answer,
        Operation::Sheet => interface::scope_deps_sheet,
        Operation::Thin => interface::scope_deps_thin,
        Operation::StrictAnswer => interface::scope_deps_strict_answer,
        Operation::StrictSheet => interface::scope_deps_strict_sheet,
    }
}

#[cfg(library)]
impl Stage for Library {
    fn call(&mut self, operation: Operation, job: &[u8], out: &mut [u8]) -> i64 {
        // SAFETY: the pointers and lengths are those of slices, and `out` is borrowed alone.
        unsafe { function(operation)(job.as_ptr(), job.len(), out.as_mut_ptr(), out.len()) }
    }
}

#[cfg(not(library))]
impl Stage for Library {
    fn call(&mut self, _: Operation, _: &[u8], _: &mut [u8]) -> i64 {
        unreachable!("no library can be opened where there is none")
    }
}

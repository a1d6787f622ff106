//! How a call of the library returns a value.

use crate::error::Refusal;
use std::mem::MaybeUninit;

/// What a call wrote, or why it was refused.
///
/// # Safety
///
/// Where the call returns `DMC_OK`, it has written to its pointer.
#[inline(always)]
pub(crate) unsafe fn written<T, E: Refusal>(call: impl FnOnce(*mut T) -> u32) -> Result<T, E> {
    let mut value = MaybeUninit::uninit();
    E::check(call(value.as_mut_ptr()))?;
    // SAFETY: it is `DMC_OK`.
    Ok(unsafe { value.assume_init() })
}

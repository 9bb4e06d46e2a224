use core::ptr;

use crate::refused::done;
use crate::sys::{self, hs_place};
use crate::{Code, Refused};

/// A place, which is freed at the end.
#[derive(Debug)]
pub(crate) struct Place(hs_place);

// A place may be moved to another thread. Calls that take `&self` only read, and any number of them may run at the same
// time; `&mut self` keeps the others apart.
unsafe impl Send for Place {}
unsafe impl Sync for Place {}

impl Place {
    /// Creates a place and the object in it, by a function `hs_KIND_open` or the like.
    pub fn open(
        object: impl FnOnce(*mut hs_place) -> Result<(), Refused>,
    ) -> Result<Place, Refused> {
        let mut place = Place(hs_place { at: ptr::null_mut() });
        done(unsafe { sys::hs_place_new(&mut place.0) })?;
        object(&mut place.0)?;
        Ok(place)
    }

    pub fn read(&self) -> *const hs_place {
        &self.0
    }

    pub fn write(&mut self) -> *mut hs_place {
        &mut self.0
    }
}

impl Drop for Place {
    fn drop(&mut self) {
        unsafe { sys::hs_place_free(&mut self.0) }
    }
}

/// Returns the bytes that a call writes. If they do not fit, makes the call again, which has changed nothing, with a
/// longer buffer.
pub(crate) fn text(
    mut call: impl FnMut(*mut u8, usize, *mut usize) -> i32,
) -> Result<Vec<u8>, Refused> {
    let mut out = vec![0; 1024];
    loop {
        let mut needed = 0;
        match done(call(out.as_mut_ptr(), out.len(), &mut needed)) {
            Ok(()) => {
                out.truncate(needed);
                return Ok(out);
            }
            Err(refused) if refused.code() == Code::NO_ROOM => out.resize(needed, 0),
            Err(refused) => return Err(refused),
        }
    }
}

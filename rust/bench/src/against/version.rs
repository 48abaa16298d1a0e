//! A version of the proved code: a shared library, loaded beside others that have the same names.

use crate::turns::Play;
use oracle::Job;
use std::ffi::{CStr, CString, c_char, c_int, c_void};

mod linked {
    use super::{c_char, c_int, c_void};

    #[link(name = "dl")]
    unsafe extern "C" {
        pub fn dlopen(path: *const c_char, flags: c_int) -> *mut c_void;
        pub fn dlsym(library: *mut c_void, name: *const c_char) -> *mut c_void;
    }
}

/// Linux's number for names that are all found at once.
const NOW: c_int = 2;

/// `zescolumba_fit`, as the C header has it.
type Fit = unsafe extern "C" fn(
    *const u8,
    usize,
    *const u8,
    usize,
    *const u8,
    usize,
    u64,
    u64,
    u64,
    u64,
    *mut u8,
    usize,
    *mut u8,
    usize,
) -> u32;

/// `zescolumba_weight`, as the C header has it.
type Weight = unsafe extern "C" fn(u64, u64, u64, *mut u8, usize) -> u32;

/// A call of crates/measured on numbers in place.
type InPlace = unsafe extern "C" fn(*mut f64, usize);

/// The calls of a library, which stays loaded.
pub struct Version {
    fit: Fit,
    weight: Weight,
    roots: InPlace,
    roots_in_passes: InPlace,
    exponentials: InPlace,
    pub play: Play,
}

/// The address of a name in a library.
fn find(library: *mut c_void, name: &CStr) -> Option<*mut c_void> {
    // SAFETY: the call reads a name that ends with a zero, and the library is loaded.
    let found = unsafe { linked::dlsym(library, name.as_ptr()) };
    (!found.is_null()).then_some(found)
}

impl Version {
    pub fn load(path: &str) -> Option<Self> {
        let path = CString::new(path).ok()?;
        // SAFETY: the call reads a path that ends with a zero.
        let library = unsafe { linked::dlopen(path.as_ptr(), NOW) };
        if library.is_null() {
            return None;
        }
        // SAFETY: where a library has such a name, that is the call of this type: the C header's do not change from version to
        // version, nor do those of crates/measured in the versions that today's toolchain builds.
        unsafe {
            use std::mem::transmute as call;
            Some(Self {
                fit: call::<*mut c_void, Fit>(find(library, c"zescolumba_fit")?),
                weight: call::<*mut c_void, Weight>(find(library, c"zescolumba_weight")?),
                roots: call::<*mut c_void, InPlace>(find(library, c"zescolumba_roots")?),
                roots_in_passes: call::<*mut c_void, InPlace>(find(
                    library,
                    c"zescolumba_roots_in_passes",
                )?),
                exponentials: call::<*mut c_void, InPlace>(find(
                    library,
                    c"zescolumba_exponentials",
                )?),
                play: call::<*mut c_void, Play>(find(library, c"zescolumba_turns")?),
            })
        }
    }

    pub fn fit(&self, job: &Job, out: &mut [u8], summary: &mut [u8]) -> u32 {
        // SAFETY: each pointer comes with the length of its slice, those written are lent exclusively, and the call is proved to
        // stay in them.
        unsafe {
            (self.fit)(
                job.coords.as_ptr(),
                job.coords.len(),
                job.x.as_ptr(),
                job.x.len(),
                job.y.as_ptr(),
                job.y.len(),
                job.p,
                job.kernel,
                job.kind,
                job.bandwidth,
                out.as_mut_ptr(),
                out.len(),
                summary.as_mut_ptr(),
                summary.len(),
            )
        }
    }

    pub fn weight(&self, kernel: u64, d: f64, b: f64) -> f64 {
        let mut out = [0; 8];
        // SAFETY: as for `fit`.
        let number =
            unsafe { (self.weight)(kernel, d.to_bits(), b.to_bits(), out.as_mut_ptr(), 8) };
        assert_eq!(number, 0, "a weight");
        f64::from_le_bytes(out)
    }

    pub fn roots(&self, values: &mut [f64]) {
        // SAFETY: as for `fit`.
        unsafe { (self.roots)(values.as_mut_ptr(), values.len()) }
    }

    /// Roots of 512 numbers at a time, as a local solve takes them.
    pub fn roots_in_passes(&self, values: &mut [f64]) {
        for part in values.chunks_mut(512) {
            // SAFETY: as for `fit`.
            unsafe { (self.roots_in_passes)(part.as_mut_ptr(), part.len()) }
        }
    }

    pub fn exponentials(&self, values: &mut [f64]) {
        // SAFETY: as for `fit`.
        unsafe { (self.exponentials)(values.as_mut_ptr(), values.len()) }
    }
}

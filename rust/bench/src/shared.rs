//! A build of the library, out of a shared object.

use kv::lent::Answer;
use std::ffi::{c_char, c_int, c_void, CStr, CString};
use std::mem::transmute;

const RESOLVE_NOW: c_int = 2;

extern "C" {
    fn dlopen(file: *const c_char, mode: c_int) -> *mut c_void;
    fn dlsym(library: *mut c_void, name: *const c_char) -> *mut c_void;
}

type CostAndBound = unsafe extern "C" fn(usize, usize, *const u8, usize) -> Answer;
type Interpolate =
    unsafe extern "C" fn(usize, usize, usize, *const u8, usize, *mut u8, usize) -> Answer;
type List = unsafe extern "C" fn(
    usize,
    usize,
    usize,
    *const u8,
    usize,
    *mut u8,
    usize,
    *mut u16,
    usize,
) -> Answer;

pub struct Shared {
    cost_and_bound: CostAndBound,
    interpolate: Interpolate,
    list: List,
}

impl Shared {
    /// `None` where the file is no shared object that has the entries. What it has is called as the
    /// entries of this library are.
    pub fn open(file: &str) -> Option<Shared> {
        let file = CString::new(file).ok()?;
        let library = unsafe { dlopen(file.as_ptr(), RESOLVE_NOW) };
        if library.is_null() {
            return None;
        }
        let entry = |name: &CStr| {
            let entry = unsafe { dlsym(library, name.as_ptr()) };
            (!entry.is_null()).then_some(entry)
        };
        Some(Shared {
            cost_and_bound: unsafe {
                transmute::<*mut c_void, CostAndBound>(entry(c"kv_cost_and_bound")?)
            },
            interpolate: unsafe {
                transmute::<*mut c_void, Interpolate>(entry(c"kv_interpolate")?)
            },
            list: unsafe { transmute::<*mut c_void, List>(entry(c"kv_list_of_multiplicities")?) },
        })
    }

    pub fn cost_and_bound(&self, n: usize, k: usize, matrix: &[u8]) -> Answer {
        unsafe { (self.cost_and_bound)(n, k, matrix.as_ptr(), matrix.len()) }
    }

    pub fn interpolate(
        &self,
        n: usize,
        k: usize,
        limit: usize,
        matrix: &[u8],
        out: &mut [u8],
    ) -> Answer {
        let (input, output) = (matrix.as_ptr(), out.as_mut_ptr());
        unsafe { (self.interpolate)(n, k, limit, input, matrix.len(), output, out.len()) }
    }

    pub fn list(
        &self,
        n: usize,
        k: usize,
        limit: usize,
        matrix: &[u8],
        rows: &mut [u8],
        scores: &mut [u16],
    ) -> Answer {
        unsafe {
            (self.list)(
                n,
                k,
                limit,
                matrix.as_ptr(),
                matrix.len(),
                rows.as_mut_ptr(),
                rows.len(),
                scores.as_mut_ptr(),
                scores.len(),
            )
        }
    }
}

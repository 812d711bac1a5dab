//! A library that oracle/build made, loaded into this process. The names are those of export.rs.

use std::ffi::{CString, c_char, c_int, c_void};
use std::mem::transmute_copy;

unsafe extern "C" {
    fn dlopen(path: *const c_char, mode: c_int) -> *mut c_void;
    fn dlsym(library: *mut c_void, name: *const c_char) -> *mut c_void;
}

pub struct Library(*mut c_void);

impl Library {
    /// The library stays loaded until the program ends.
    pub fn load(path: &str) -> Library {
        const RESOLVE_NOW: c_int = 2;
        let name = CString::new(path).unwrap();
        let library = unsafe { dlopen(name.as_ptr(), RESOLVE_NOW) };
        assert!(!library.is_null(), "can't load {path}");
        Library(library)
    }

    /// The huge frames of a tree, in this build.
    pub fn tree_huge(&self) -> usize {
        let tree_huge: extern "C" fn() -> usize = unsafe { self.function("tree_huge") };
        tree_huge()
    }

    /// The order of a huge frame, in this build.
    fn huge_order(&self) -> usize {
        let huge_order: extern "C" fn() -> usize = unsafe { self.function("huge_order") };
        huge_order()
    }

    /// A function whose type `F` must be export.rs's own, so that the number of dlsym is a pointer to it.
    pub unsafe fn function<F>(&self, name: &str) -> F {
        let name = CString::new(format!("oracle_{name}")).unwrap();
        let found = unsafe { dlsym(self.0, name.as_ptr()) };
        assert!(!found.is_null(), "the library has no {name:?}");
        unsafe { transmute_copy(&found) }
    }
}

/// The order of a huge frame, which must be the same in all of these.
pub fn huge_order(libraries: &[Library]) -> u64 {
    let order = libraries[0].huge_order();
    assert!(libraries.iter().all(|library| library.huge_order() == order), "builds of two page sizes");
    order as u64
}

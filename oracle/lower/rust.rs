//! The Rust's lower level, in its builds. The names and types are those of export.rs.

use crate::model::numbers::{Shape, Variant};
use crate::shared::library::{Library, huge_order};

/// The build of one tree size. Each call copies rows and entries into the Rust's layout and back.
pub struct Rust {
    /// Huge frames in a tree.
    t: u64,
    pub new: unsafe extern "C" fn(usize, *mut u64, *mut u16, u32) -> u32,
    pub get: unsafe extern "C" fn(usize, *mut u64, *mut u16, usize, usize, Option<&usize>, &mut usize) -> u32,
    pub put: unsafe extern "C" fn(usize, *mut u64, *mut u16, usize, usize) -> u32,
    pub is_free: unsafe extern "C" fn(usize, *mut u64, *mut u16, usize, usize, &mut u32) -> u32,
    pub stats: unsafe extern "C" fn(usize, *mut u64, *mut u16, &mut [usize; 3]) -> u32,
    pub stats_at: unsafe extern "C" fn(usize, *mut u64, *mut u16, usize, usize, &mut [usize; 3]) -> u32,
    pub recover: unsafe extern "C" fn(usize, *mut u64, *mut u16) -> u32,
}

impl Rust {
    fn of(library: &Library) -> Rust {
        unsafe {
            Rust {
                t: library.tree_huge() as u64,
                new: library.function("new"),
                get: library.function("get"),
                put: library.function("put"),
                is_free: library.function("is_free"),
                stats: library.function("stats"),
                stats_at: library.function("stats_at"),
                recover: library.function("recover"),
            }
        }
    }
}

/// The builds of one page size, one for each tree size.
pub struct Builds {
    pub variant: Variant,
    builds: Vec<Rust>,
}

impl Builds {
    pub fn load(paths: &[String]) -> Builds {
        let libraries: Vec<Library> = paths.iter().map(|path| Library::load(path)).collect();
        let builds = libraries.iter().map(Rust::of).collect();
        Builds { variant: Variant { huge_order: huge_order(&libraries) }, builds }
    }

    /// The build for these numbers.
    pub fn of(&self, shape: Shape) -> &Rust {
        assert!(shape.variant == self.variant, "no build for this page size");
        self.builds.iter().find(|build| build.t == shape.t).expect("a build for each tree size")
    }
}

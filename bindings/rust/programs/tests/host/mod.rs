//! What the tests inside the programs have of Rattle's std, over that of Rust: `rt`, and a vector that is a writer.

/// The names that each module of these tests has in scope, before Rust's prelude.
pub mod prelude {
    pub use super::vec::Vec;
    pub use super::{Alloc, HostRuntime};
    pub use core::str;
}

/// What a test is given.
pub struct HostRuntime;

/// The bound of what has the allocator.
pub trait Alloc {
    type A;

    /// Returns the allocator.
    fn alloc(&self) -> Self::A;
}

impl Alloc for HostRuntime {
    type A = std::alloc::Global;

    fn alloc(&self) -> Self::A {
        std::alloc::Global
    }
}

/// The paths `std::..` of these tests.
pub mod std {
    pub use ::std::cell;
    pub use intervallum_programs::rattle::std::{alloc, collections, io};

    pub mod process {
        /// The bound of what may end the process, as a test does that fails.
        pub trait Abort {}
        impl Abort for super::super::HostRuntime {}
    }

    pub mod random {
        /// The bound of what has random numbers.
        pub trait RandomSource {}
        impl RandomSource for super::super::HostRuntime {}
    }

    pub mod test {
        /// What a test ends with that found no memory.
        #[derive(Debug)]
        pub struct Fail;

        impl From<super::alloc::AllocError> for Fail {
            fn from(_: super::alloc::AllocError) -> Self {
                Fail
            }
        }
    }
}

/// The vector of Rattle, and what it answers if an allocation fails. They are types of these tests, for which Rust lets them write
/// the impls of its own traits.
pub mod vec {
    use super::std::{alloc::AllocError, alloc::Global, io, test::Fail};
    use ::std::ops::Deref;
    use intervallum_programs::proved::ivl_lines::SessionFault;
    use intervallum_programs::rattle::prelude as rattle;

    /// An allocation failed.
    #[derive(Debug)]
    pub struct NoMemory;

    impl From<AllocError> for NoMemory {
        fn from(_: AllocError) -> Self {
            NoMemory
        }
    }

    impl From<NoMemory> for AllocError {
        fn from(_: NoMemory) -> Self {
            AllocError
        }
    }

    impl From<NoMemory> for Fail {
        fn from(_: NoMemory) -> Self {
            Fail
        }
    }

    impl From<NoMemory> for SessionFault {
        fn from(_: NoMemory) -> Self {
            SessionFault::Memory
        }
    }

    impl From<NoMemory> for io::Error {
        fn from(_: NoMemory) -> Self {
            io::ErrorKind::OutOfMemory.into()
        }
    }

    /// A vector of Rattle.
    pub struct Vec<T>(rattle::Vec<T>);

    impl<T> Vec<T> {
        pub fn new(alloc: Global) -> Self {
            Vec(rattle::Vec::new(alloc))
        }

        pub fn with_capacity(alloc: Global, count: usize) -> Result<Self, NoMemory> {
            Ok(Vec(rattle::Vec::with_capacity(alloc, count)?))
        }

        pub fn push(&mut self, item: T) -> Result<(), NoMemory> {
            Ok(self.0.push(item)?)
        }

        pub fn as_slice(&self) -> &[T] {
            &self.0
        }
    }

    impl<T: Copy> Vec<T> {
        pub fn from_slice(alloc: Global, items: &[T]) -> Result<Self, NoMemory> {
            let mut made = Vec::new(alloc);
            made.extend_from_slice(items)?;
            Ok(made)
        }

        pub fn extend_from_slice(&mut self, items: &[T]) -> Result<(), NoMemory> {
            self.0.reserve(items.len())?;
            for item in items {
                self.0.push_reserved(*item);
            }
            Ok(())
        }
    }

    impl<T> Deref for Vec<T> {
        type Target = [T];

        fn deref(&self) -> &[T] {
            &self.0
        }
    }

    impl io::Write for Vec<u8> {
        fn write(&mut self, bytes: &[u8]) -> io::Result<usize> {
            self.extend_from_slice(bytes)?;
            Ok(bytes.len())
        }

        fn flush(&mut self) -> io::Result<()> {
            Ok(())
        }
    }
}

// in scope in all of the tests, before the macros of std with these names
macro_rules! assert {
    ($rt:expr; $($words:tt)*) => { ::std::assert!($($words)*) };
}
macro_rules! assert_eq {
    ($rt:expr; $($words:tt)*) => { ::std::assert_eq!($($words)*) };
}
macro_rules! format {
    (in $alloc:expr; $($words:tt)*) => {{
        let _ = $alloc;
        Ok::<_, $crate::host::vec::NoMemory>(::std::format!($($words)*))
    }};
}
macro_rules! vec {
    (in $alloc:expr; $($item:expr),*) => {
        intervallum_programs::rattle::prelude::Vec::from_array($alloc, [$($item),*])
    };
}

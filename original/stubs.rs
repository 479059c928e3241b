//! What the original's util.rs asks of files that are not at hand. Only the page size is ever used; the
//! addresses serve its clearing of raw memory, which is never called.

pub mod types {
    pub const PAGE_SIZE: usize = 4096;
}

pub mod address {
    pub trait Address: Sized {
        fn as_usize(&self) -> usize;
        fn is_null(&self) -> bool;
        fn checked_sub(&self, bytes: usize) -> Option<Self>;
    }

    #[derive(Clone, Copy)]
    pub struct VirtAddr(usize);

    impl VirtAddr {
        pub fn as_mut_ptr<T>(self) -> *mut T {
            self.0 as *mut T
        }
    }

    impl Address for VirtAddr {
        fn as_usize(&self) -> usize {
            self.0
        }

        fn is_null(&self) -> bool {
            self.0 == 0
        }

        fn checked_sub(&self, bytes: usize) -> Option<Self> {
            self.0.checked_sub(bytes).map(VirtAddr)
        }
    }
}

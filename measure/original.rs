//! The original's maps behind the exports of `crates/measured`, with the same loops: its word, its tree, and
//! the tree of trees that is the third level. The original's file is included from the folder ORIGINAL when
//! this is built, and is not copied.
#![no_std]

use original::{BitmapAllocator, BitmapAllocator64, BitmapAllocator1024, Held, Third};

#[allow(dead_code, unexpected_cfgs)]
mod original {
    include!(concat!(env!("ORIGINAL"), "/kernel/src/utils/bitmap_allocator.rs"));

    pub type Third = BitmapAllocatorTree<BitmapAllocator1024>;

    /// A map of N words: how it is made of them, with its summaries, and how they are read.
    pub trait Held<const N: usize> {
        fn holding(words: &[u64; N]) -> Self;
        fn store(&self, words: &mut [u64; N]);
    }

    impl Held<1> for BitmapAllocator64 {
        fn holding(words: &[u64; 1]) -> Self {
            let mut map = Self::default();
            map.bits = words[0];
            map
        }

        fn store(&self, words: &mut [u64; 1]) {
            words[0] = self.bits;
        }
    }

    impl Held<16> for BitmapAllocator1024 {
        fn holding(words: &[u64; 16]) -> Self {
            let mut map = Self::default();
            for i in 0..16 {
                map.child[i].bits = words[i];
                map.bits |= ((words[i] != 0) as u16) << i;
            }
            map
        }

        fn store(&self, words: &mut [u64; 16]) {
            for i in 0..16 {
                words[i] = self.child[i].bits;
            }
        }
    }

    impl Held<256> for Third {
        fn holding(words: &[u64; 256]) -> Self {
            let mut map = Self::default();
            for (i, tree) in words.as_chunks::<16>().0.iter().enumerate() {
                map.child[i] = Held::holding(tree);
                map.bits |= ((map.child[i].bits != 0) as u16) << i;
            }
            map
        }

        fn store(&self, words: &mut [u64; 256]) {
            for (i, tree) in words.as_chunks_mut::<16>().0.iter_mut().enumerate() {
                self.child[i].store(tree);
            }
        }
    }
}

/// The exports for one map. Its `alloc` and `free` stay calls, as they are from other code: they are not
/// inlined, and the answer is kept.
macro_rules! exports {
    ($map:ty, $words:literal, $take:ident, $free:ident, $takes:ident, $frees:ident) => {
        #[inline(never)]
        #[unsafe(no_mangle)]
        pub fn $take(map: &mut $map, n: usize, a: usize) -> Option<usize> {
            map.alloc(n, a)
        }

        #[inline(never)]
        #[unsafe(no_mangle)]
        pub fn $free(map: &mut $map, start: usize, n: usize) {
            map.free(start, n)
        }

        /// So many takes of n slots at a multiple of 2^a. Answers how many slots are used then.
        #[unsafe(no_mangle)]
        pub extern "C" fn $takes(words: &mut [u64; $words], n: usize, a: usize, times: usize) -> usize {
            let mut map = <$map>::holding(words);
            for _ in 0..times {
                $take(&mut map, n, a);
            }
            map.store(words);
            map.used()
        }

        /// A free of n slots from each of the starts. Answers how many slots are used then.
        ///
        /// # Safety
        /// `starts` points to `count` numbers.
        #[unsafe(no_mangle)]
        pub unsafe extern "C" fn $frees(
            words: &mut [u64; $words],
            starts: *const u64,
            count: usize,
            n: usize,
        ) -> usize {
            let mut map = <$map>::holding(words);
            for i in 0..count {
                $free(&mut map, unsafe { *starts.add(i) } as usize, n);
            }
            map.store(words);
            map.used()
        }
    };
}

exports!(BitmapAllocator1024, 16, orig_take, orig_free, orig_takes, orig_frees);
exports!(Third, 256, orig_third_take, orig_third_free, orig_third_takes, orig_third_frees);
exports!(BitmapAllocator64, 1, orig_word_take, orig_word_free, orig_word_takes, orig_word_frees);

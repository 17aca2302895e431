//! Stands in for the crate `xxhash_rust`. Hashes of vertex declarations are not compared, so
//! asking for one is an error.

pub mod xxh3 {
    use core::hash::Hasher;

    pub struct Xxh3;

    impl Xxh3 {
        #[allow(clippy::new_without_default)]
        pub fn new() -> Self {
            Self
        }
    }

    impl Hasher for Xxh3 {
        fn write(&mut self, _bytes: &[u8]) {
            unimplemented!("hashes are not compared");
        }

        fn finish(&self) -> u64 {
            unimplemented!("hashes are not compared");
        }
    }
}

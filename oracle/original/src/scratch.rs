//! What ff_state.rs needs for its pixel constants, which are not compared.

pub struct ScratchArena;

impl ScratchArena {
    pub fn alloc_uninit_slice<T>(&mut self, _count: usize) -> *mut T {
        unimplemented!("pixel constants are not compared");
    }
}

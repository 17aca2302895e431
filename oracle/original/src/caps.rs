//! What ff_state.rs needs of the device caps. Texture stages are not compared.

pub const FF_TEXTURE_STAGES: u32 = 8;

pub fn texture_op_unimplemented(_op: u32) -> bool {
    unimplemented!("texture stage states are not compared");
}

pub fn unimplemented_texture_op(_op: u32) -> Option<&'static str> {
    unimplemented!("texture stage states are not compared");
}

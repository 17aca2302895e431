//! What dxso/ff.rs needs of the translator's emitter. Shader text is not compared.

use bitflags::bitflags;

pub const POS_FIXUP_MSL: &str = "";
pub const POS_FIXUP_DEPTH_BIAS_MSL: &str = "";

bitflags! {
    #[derive(Clone, Copy, Debug, PartialEq, Eq, Hash)]
    pub struct VariantFlags: u16 {
        const FOG_SOURCE_W = 1 << 0;
        const FLAT_SHADE = 1 << 1;
        const SRGB_WRITE = 1 << 2;
        const POINT_SPRITE = 1 << 3;
        const SAMPLE_MASK = 1 << 4;
        const LOD_BIAS = 1 << 5;
    }
}

#[derive(Clone, Copy, Debug, PartialEq, Eq, Hash)]
pub struct VariantKey {
    pub linked_input_mask: u16,
    pub alpha_func: u8,
    pub fog_mode: u8,
    pub fog_table_mode: u8,
    pub depth_sampler_mask: u16,
    pub depth_fetch_mask: u16,
    pub fetch4_mask: u16,
    pub fetch4_alpha_mask: u16,
    pub raw_depth_red_mask: u16,
    pub volume_sampler_mask: u16,
    pub cube_sampler_mask: u16,
    pub tt_projected_mask: u8,
    pub color_out_mask: u8,
    pub sample_mask: u32,
    pub flags: VariantFlags,
}

pub fn bump_lum_exprs(_stage: u16) -> (String, String) {
    unimplemented!("shader text is not compared");
}

pub fn bump_matrix_exprs(_stage: u16) -> (String, String, String, String) {
    unimplemented!("shader text is not compared");
}

pub fn emit_srgb_write_helper(_out: &mut String) {
    unimplemented!("shader text is not compared");
}

pub fn fetch4_sample(_stage: u16, _uv: &str, _depth: bool, _alpha: bool) -> String {
    unimplemented!("shader text is not compared");
}

pub fn fog_blend_active(_variant: VariantKey) -> bool {
    unimplemented!("shader text is not compared");
}

pub fn write_fog_blend(_out: &mut String, _variant: VariantKey, _color: &str) {
    unimplemented!("shader text is not compared");
}

pub fn write_point_sprite_prologue(_out: &mut String) {
    unimplemented!("shader text is not compared");
}

//! The calls by their C names, as include/ff_state.h declares them.

/// `FF_STATE_VERSION`.
pub const VERSION: u32 = 0x0002_0000;

/// `struct ff_state`: a state in memory, whose bytes the library alone reads and writes.
#[repr(C)]
#[derive(Clone, PartialEq)]
pub struct FfState([u32; 6058]);

impl FfState {
    /// Memory for a state, which `ff_state_fresh` or `ff_state_read_image` makes one.
    pub const ZEROS: Self = Self([0; 6058]);
}

/// `struct ff_light`: the type, then 25 floats.
#[repr(C)]
pub struct FfLight {
    pub type_: u32,
    pub floats: [f32; 25],
}

unsafe extern "C" {
    pub fn ff_image_fresh(image: *mut u8, image_len: usize) -> u32;
    pub fn ff_image_check(image: *const u8, image_len: usize) -> u32;
    pub fn ff_set_transform(
        image: *mut u8,
        image_len: usize,
        state: u32,
        matrix: *const u8,
        matrix_len: usize,
    ) -> u32;
    pub fn ff_multiply_transform(
        image: *mut u8,
        image_len: usize,
        state: u32,
        matrix: *const u8,
        matrix_len: usize,
    ) -> u32;
    pub fn ff_transform(
        image: *const u8,
        image_len: usize,
        state: u32,
        out: *mut u8,
        out_len: usize,
    ) -> u32;
    pub fn ff_world_palette_used(image: *const u8, image_len: usize, out: *mut u32) -> u32;
    pub fn ff_world_view_projection(
        image: *const u8,
        image_len: usize,
        out: *mut u8,
        out_len: usize,
    ) -> u32;
    pub fn ff_set_material(
        image: *mut u8,
        image_len: usize,
        material: *const u8,
        material_len: usize,
    ) -> u32;
    pub fn ff_material(image: *const u8, image_len: usize, out: *mut u8, out_len: usize) -> u32;
    pub fn ff_set_light_at(
        image: *mut u8,
        image_len: usize,
        index: u32,
        light: *const u8,
        light_len: usize,
    ) -> u32;
    pub fn ff_set_light_enabled_at(
        image: *mut u8,
        image_len: usize,
        index: u32,
        enabled: u32,
    ) -> u32;
    pub fn ff_get_light_at(
        image: *const u8,
        image_len: usize,
        index: u32,
        out: *mut u8,
        out_len: usize,
    ) -> u32;
    pub fn ff_is_light_enabled_at(
        image: *const u8,
        image_len: usize,
        index: u32,
        out: *mut u32,
    ) -> u32;
    pub fn ff_is_light_defined_at(
        image: *const u8,
        image_len: usize,
        index: u32,
        out: *mut u32,
    ) -> u32;
    pub fn ff_vs_source_light_inputs(image: *const u8, image_len: usize, out: *mut u32) -> u32;
    pub fn ff_compacted_light_masks(image: *const u8, image_len: usize, out: *mut u32) -> u32;
    pub fn ff_set_fog_start(image: *mut u8, image_len: usize, bits: u32) -> u32;
    pub fn ff_set_fog_end(image: *mut u8, image_len: usize, bits: u32) -> u32;
    pub fn ff_set_fog_density(image: *mut u8, image_len: usize, bits: u32) -> u32;
    pub fn ff_set_ambient(image: *mut u8, image_len: usize, color: u32) -> u32;
    pub fn ff_set_texture_mask(image: *mut u8, image_len: usize, mask: u8) -> u32;
    pub fn ff_mark_ff_vs_dirty(image: *mut u8, image_len: usize, bits: u32) -> u32;
    pub fn ff_take_ff_vs_dirty(image: *mut u8, image_len: usize, out: *mut u32) -> u32;

    pub fn ff_mat_mul(
        a: *const u8,
        a_len: usize,
        b: *const u8,
        b_len: usize,
        out: *mut u8,
        out_len: usize,
    ) -> u32;
    pub fn ff_transpose(m: *const u8, m_len: usize, out: *mut u8, out_len: usize) -> u32;
    pub fn ff_inverse(m: *const u8, m_len: usize, out: *mut u8, out_len: usize) -> u32;
    pub safe fn ff_sqrt(x: u32) -> u32;
    pub safe fn ff_cos(x: u32) -> u32;
    pub safe fn ff_state_version() -> u32;
}

// The eight numbers in the middle are a key's.
#[rustfmt::skip]
unsafe extern "C" {
    pub fn ff_vs_row_count(image: *const u8, image_len: usize, has_rhw: u8, lighting_enabled: u8, specular_enable: u8, vertex_blend_indexed: u8, preview: u8, light_active_mask: u8, fog_mode: u8, vertex_blend_count: u8, out: *mut u32) -> u32;
    pub fn ff_wv_section_rows(image: *const u8, image_len: usize, has_rhw: u8, lighting_enabled: u8, specular_enable: u8, vertex_blend_indexed: u8, preview: u8, light_active_mask: u8, fog_mode: u8, vertex_blend_count: u8, out: *mut u32) -> u32;
    pub fn ff_proj_section_rows(image: *const u8, image_len: usize, has_rhw: u8, lighting_enabled: u8, specular_enable: u8, vertex_blend_indexed: u8, preview: u8, light_active_mask: u8, fog_mode: u8, vertex_blend_count: u8, out: *mut u32) -> u32;
    pub fn ff_material_section_rows(image: *const u8, image_len: usize, has_rhw: u8, lighting_enabled: u8, specular_enable: u8, vertex_blend_indexed: u8, preview: u8, light_active_mask: u8, fog_mode: u8, vertex_blend_count: u8, out: *mut u32) -> u32;
    pub fn ff_lights_section_rows(image: *const u8, image_len: usize, has_rhw: u8, lighting_enabled: u8, specular_enable: u8, vertex_blend_indexed: u8, preview: u8, light_active_mask: u8, fog_mode: u8, vertex_blend_count: u8, out: *mut u32) -> u32;
    pub fn ff_palette_section_rows(image: *const u8, image_len: usize, has_rhw: u8, lighting_enabled: u8, specular_enable: u8, vertex_blend_indexed: u8, preview: u8, light_active_mask: u8, fog_mode: u8, vertex_blend_count: u8, out: *mut u32) -> u32;
    pub fn ff_tt_section_rows(image: *const u8, image_len: usize, has_rhw: u8, lighting_enabled: u8, specular_enable: u8, vertex_blend_indexed: u8, preview: u8, light_active_mask: u8, fog_mode: u8, vertex_blend_count: u8, out: *mut u32) -> u32;
    pub fn ff_fog_section_rows(image: *const u8, image_len: usize, has_rhw: u8, lighting_enabled: u8, specular_enable: u8, vertex_blend_indexed: u8, preview: u8, light_active_mask: u8, fog_mode: u8, vertex_blend_count: u8, out: *mut u32) -> u32;
    pub fn ff_ambient_section_rows(image: *const u8, image_len: usize, has_rhw: u8, lighting_enabled: u8, specular_enable: u8, vertex_blend_indexed: u8, preview: u8, light_active_mask: u8, fog_mode: u8, vertex_blend_count: u8, out: *mut u32) -> u32;
    pub fn ff_fill_wv_section(image: *const u8, image_len: usize, has_rhw: u8, lighting_enabled: u8, specular_enable: u8, vertex_blend_indexed: u8, preview: u8, light_active_mask: u8, fog_mode: u8, vertex_blend_count: u8, dst: *mut u8, dst_len: usize) -> u32;
    pub fn ff_fill_proj_section(image: *const u8, image_len: usize, has_rhw: u8, lighting_enabled: u8, specular_enable: u8, vertex_blend_indexed: u8, preview: u8, light_active_mask: u8, fog_mode: u8, vertex_blend_count: u8, dst: *mut u8, dst_len: usize) -> u32;
    pub fn ff_fill_material_section(image: *const u8, image_len: usize, has_rhw: u8, lighting_enabled: u8, specular_enable: u8, vertex_blend_indexed: u8, preview: u8, light_active_mask: u8, fog_mode: u8, vertex_blend_count: u8, dst: *mut u8, dst_len: usize) -> u32;
    pub fn ff_fill_lights_section(image: *const u8, image_len: usize, has_rhw: u8, lighting_enabled: u8, specular_enable: u8, vertex_blend_indexed: u8, preview: u8, light_active_mask: u8, fog_mode: u8, vertex_blend_count: u8, dst: *mut u8, dst_len: usize) -> u32;
    pub fn ff_fill_palette_section(image: *const u8, image_len: usize, has_rhw: u8, lighting_enabled: u8, specular_enable: u8, vertex_blend_indexed: u8, preview: u8, light_active_mask: u8, fog_mode: u8, vertex_blend_count: u8, dst: *mut u8, dst_len: usize) -> u32;
    pub fn ff_fill_tt_section(image: *const u8, image_len: usize, has_rhw: u8, lighting_enabled: u8, specular_enable: u8, vertex_blend_indexed: u8, preview: u8, light_active_mask: u8, fog_mode: u8, vertex_blend_count: u8, dst: *mut u8, dst_len: usize) -> u32;
    pub fn ff_fill_fog_section(image: *const u8, image_len: usize, has_rhw: u8, lighting_enabled: u8, specular_enable: u8, vertex_blend_indexed: u8, preview: u8, light_active_mask: u8, fog_mode: u8, vertex_blend_count: u8, dst: *mut u8, dst_len: usize) -> u32;
    pub fn ff_fill_ambient_section(image: *const u8, image_len: usize, has_rhw: u8, lighting_enabled: u8, specular_enable: u8, vertex_blend_indexed: u8, preview: u8, light_active_mask: u8, fog_mode: u8, vertex_blend_count: u8, dst: *mut u8, dst_len: usize) -> u32;
    pub fn ff_refresh(image: *mut u8, image_len: usize, has_rhw: u8, lighting_enabled: u8, specular_enable: u8, vertex_blend_indexed: u8, preview: u8, light_active_mask: u8, fog_mode: u8, vertex_blend_count: u8, mirror: *mut u8, mirror_len: usize, out: *mut u32) -> u32;
}

// The same on a state in memory. A matrix is 16 floats, a material 17.
unsafe extern "C" {
    pub fn ff_state_fresh(s: *mut FfState);
    pub fn ff_state_read_image(s: *mut FfState, image: *const u8, image_len: usize) -> u32;
    pub fn ff_state_write_image(s: *const FfState, image: *mut u8, image_len: usize) -> u32;
    pub fn ff_state_set_transform(s: *mut FfState, state: u32, matrix: *const f32) -> u32;
    pub fn ff_state_multiply_transform(s: *mut FfState, state: u32, matrix: *const f32) -> u32;
    pub fn ff_state_set_material(s: *mut FfState, material: *const f32) -> u32;
    pub fn ff_state_set_light_at(s: *mut FfState, index: u32, light: *const FfLight) -> u32;
    pub fn ff_state_set_light_enabled_at(s: *mut FfState, index: u32, enabled: u32) -> u32;
    pub fn ff_state_set_fog_start(s: *mut FfState, start: f32) -> u32;
    pub fn ff_state_set_fog_end(s: *mut FfState, end: f32) -> u32;
    pub fn ff_state_set_fog_density(s: *mut FfState, density: f32) -> u32;
    pub fn ff_state_set_ambient(s: *mut FfState, color: u32) -> u32;
    pub fn ff_state_set_texture_mask(s: *mut FfState, mask: u8) -> u32;
    pub fn ff_state_vs_source_light_inputs(s: *const FfState, out: *mut u32) -> u32;
    pub fn ff_state_mark_ff_vs_dirty(s: *mut FfState, bits: u32) -> u32;
    pub fn ff_state_take_ff_vs_dirty(s: *mut FfState, out: *mut u32) -> u32;
    pub fn ff_state_refresh(
        s: *mut FfState,
        has_rhw: u8,
        lighting_enabled: u8,
        specular_enable: u8,
        vertex_blend_indexed: u8,
        preview: u8,
        light_active_mask: u8,
        fog_mode: u8,
        vertex_blend_count: u8,
        mirror: *mut f32,
        mirror_len: usize,
        out: *mut u32,
    ) -> u32;
}

//! Where the fields of an image, of a light and of a material lie. The tables are crates/image/specs/Format.antt and
//! crates/codec/specs of the repository; a test compares these numbers with them, and those of include/ff_state.h.

/// Where each field of an image begins, in bytes. Numbers are little-endian.
pub mod image_at {
    /// The view, a matrix.
    pub const VIEW: usize = 0;
    /// The projection, a matrix.
    pub const PROJECTION: usize = 64;
    /// 256 world matrices.
    pub const WORLD: usize = 128;
    /// Eight texture matrices.
    pub const TEXTURE: usize = 16_512;
    /// The material.
    pub const MATERIAL: usize = 17_024;
    /// The lights of the slots 0 to 7.
    pub const LIGHTS: usize = 17_092;
    /// A byte: the slots that are enabled.
    pub const ENABLED: usize = 17_924;
    /// A byte: the slots that are defined.
    pub const DEFINED: usize = 17_925;
    /// A byte: the dirty bits.
    pub const DIRTY: usize = 17_926;
    /// A byte: 0.
    pub const ZERO: usize = 17_927;
    /// A `u16`: the highest world matrix ever set.
    pub const HIGHEST_WORLD: usize = 17_928;
    /// A `u16`: how many lights from index 8 on are stored.
    pub const OVERFLOW_COUNT: usize = 17_930;
    /// 56 entries of 112 bytes: index and enable as `u32`, the light. They are sorted by index, and unused ones are 0.
    pub const ENTRIES: usize = 17_932;
    /// A float: where fog begins.
    pub const FOG_START: usize = 24_204;
    /// A float: where fog ends.
    pub const FOG_END: usize = 24_208;
    /// A float: how dense fog is.
    pub const FOG_DENSITY: usize = 24_212;
    /// A `u32`: the ambient colour, 0xAARRGGBB.
    pub const AMBIENT: usize = 24_216;
    /// A `u32` of at most 255: the texture stages that transform.
    pub const TEXTURE_MASK: usize = 24_220;
}

/// The bytes of an entry of a light from index 8 on.
pub const ENTRY_BYTES: usize = 112;

/// How many lights have a slot, indices 0 to 7, and how many light at most.
pub const LIGHT_SLOTS: usize = 8;
/// How many world matrices there are.
pub const WORLD_MATRICES: usize = 256;
/// How many texture matrices there are.
pub const TEXTURE_STAGES: usize = 8;
/// How many matrices indexed blending packs.
pub const INDEXED_MATRICES: usize = 40;
/// How many matrices blending without indices packs at most.
pub const BLEND_MATRICES: usize = 255;
/// The rows of a light.
pub const LIGHT_ROWS: usize = 6;

//! Stands in for `mtld3d_types`: the records and numbers of d3d9types.h that the original uses.
//!
//! What the comparison rests on: the element order of `D3DMATRIX`, the fields of the records, the
//! defaults (document 01, "Calls that change the state" and "The arithmetic underneath"), the
//! D3DTS_* and D3DLIGHT_* numbers. The rest only lets the original compile.

mod numbers;

pub use numbers::*;

/// Row-major: row i, column j is `m[4 * i + j]`.
#[derive(Clone, Copy, Debug, PartialEq)]
#[repr(C)]
pub struct D3DMATRIX {
    pub m: [f32; 16],
}

impl D3DMATRIX {
    pub const IDENTITY: Self = {
        let mut m = [0.0; 16];
        m[0] = 1.0;
        m[5] = 1.0;
        m[10] = 1.0;
        m[15] = 1.0;
        Self { m }
    };
}

#[derive(Clone, Copy, Debug, Default, PartialEq)]
#[repr(C)]
pub struct D3DVECTOR {
    pub x: f32,
    pub y: f32,
    pub z: f32,
}

#[derive(Clone, Copy, Debug, Default, PartialEq)]
#[repr(C)]
pub struct D3DCOLORVALUE {
    pub r: f32,
    pub g: f32,
    pub b: f32,
    pub a: f32,
}

/// The derived default is document 01's: 17 zeros.
#[derive(Clone, Copy, Debug, Default, PartialEq)]
#[repr(C)]
pub struct D3DMATERIAL9 {
    pub diffuse: D3DCOLORVALUE,
    pub ambient: D3DCOLORVALUE,
    pub specular: D3DCOLORVALUE,
    pub emissive: D3DCOLORVALUE,
    pub power: f32,
}

#[derive(Clone, Copy, Debug, PartialEq)]
#[repr(C)]
pub struct D3DLIGHT9 {
    pub type_: u32,
    pub diffuse: D3DCOLORVALUE,
    pub specular: D3DCOLORVALUE,
    pub ambient: D3DCOLORVALUE,
    pub position: D3DVECTOR,
    pub direction: D3DVECTOR,
    pub range: f32,
    pub falloff: f32,
    pub attenuation0: f32,
    pub attenuation1: f32,
    pub attenuation2: f32,
    pub theta: f32,
    pub phi: f32,
}

impl Default for D3DLIGHT9 {
    /// Document 01's default light: directional, diffuse 1,1,1,0, direction 0,0,1, all else 0.
    fn default() -> Self {
        Self {
            type_: D3DLIGHT_DIRECTIONAL,
            diffuse: D3DCOLORVALUE {
                r: 1.0,
                g: 1.0,
                b: 1.0,
                a: 0.0,
            },
            specular: D3DCOLORVALUE::default(),
            ambient: D3DCOLORVALUE::default(),
            position: D3DVECTOR::default(),
            direction: D3DVECTOR {
                x: 0.0,
                y: 0.0,
                z: 1.0,
            },
            range: 0.0,
            falloff: 0.0,
            attenuation0: 0.0,
            attenuation1: 0.0,
            attenuation2: 0.0,
            theta: 0.0,
            phi: 0.0,
        }
    }
}

#[derive(Clone, Copy, Debug, PartialEq, Eq, Hash)]
#[repr(C)]
pub struct D3DVERTEXELEMENT9 {
    pub stream: u16,
    pub offset: u16,
    pub type_: u8,
    pub method: u8,
    pub usage: u8,
    pub usage_index: u8,
}

#[derive(Clone, Copy, Debug, PartialEq, Eq)]
pub enum StateBlockType {
    All,
    Vertex,
    Pixel,
}

impl StateBlockType {
    #[must_use]
    pub fn includes_tss(self, _ty: u32) -> bool {
        unimplemented!("state blocks are not compared");
    }
}

/// The texture stage states of a fresh device, from Microsoft's page D3DTEXTURESTAGESTATETYPE.
#[must_use]
pub const fn texture_stage_state_defaults(stage: u8) -> [u32; TEXTURE_STAGE_STATE_COUNT] {
    let mut states = [0; TEXTURE_STAGE_STATE_COUNT];
    let first = stage == 0;
    states[D3DTSS_COLOROP as usize] = if first {
        D3DTOP_MODULATE
    } else {
        D3DTOP_DISABLE
    };
    states[D3DTSS_COLORARG1 as usize] = D3DTA_TEXTURE;
    states[D3DTSS_COLORARG2 as usize] = D3DTA_CURRENT;
    states[D3DTSS_ALPHAOP as usize] = if first {
        D3DTOP_SELECTARG1
    } else {
        D3DTOP_DISABLE
    };
    states[D3DTSS_ALPHAARG1 as usize] = D3DTA_TEXTURE;
    states[D3DTSS_ALPHAARG2 as usize] = D3DTA_CURRENT;
    states[D3DTSS_TEXCOORDINDEX as usize] = stage as u32;
    states[D3DTSS_COLORARG0 as usize] = D3DTA_CURRENT;
    states[D3DTSS_ALPHAARG0 as usize] = D3DTA_CURRENT;
    states[D3DTSS_RESULTARG as usize] = D3DTA_CURRENT;
    states
}

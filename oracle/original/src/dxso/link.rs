//! What dxso/ff.rs and convert.rs need of the translator's linker. None of it is compared.

/// Any number that fits beside the fixed-function attributes; no compared call reads it.
pub const MAX_LINKED_INPUTS: usize = 8;

#[derive(Clone, Copy, Debug, PartialEq, Eq)]
pub enum DeclUsage {
    Position,
    BlendWeight,
    BlendIndices,
    Normal,
    PSize,
    Texcoord,
    Tangent,
    Binormal,
    TessFactor,
    PositionT,
    Color,
    Fog,
    Depth,
    Sample,
}

pub struct Semantic;

pub fn decl_passthrough_code(_usage: u8, _usage_index: u8) -> Option<u8> {
    unimplemented!("vertex declarations are not compared");
}

pub fn passthrough_extras(_passthrough: [u8; MAX_LINKED_INPUTS]) -> Vec<Semantic> {
    unimplemented!("shader text is not compared");
}

pub fn write_extra_members(_out: &mut String, _extras: &[Semantic]) {
    unimplemented!("shader text is not compared");
}

pub fn write_passthrough_inputs(
    _out: &mut String,
    _passthrough: [u8; MAX_LINKED_INPUTS],
    _first: u16,
) {
    unimplemented!("shader text is not compared");
}

pub fn write_passthrough_outputs(
    _out: &mut String,
    _passthrough: [u8; MAX_LINKED_INPUTS],
    _fog: bool,
) {
    unimplemented!("shader text is not compared");
}

//! The Metal names that the original answers with. None of them is compared; the values are
//! Metal's where Metal has one, and the slots are any that let the original compile.

use bitflags::bitflags;

pub const PS_LOD_BIAS_SLOT: u32 = 11;
pub const VERTEX_ATTRIBUTE_SLOTS: u32 = 31;
pub const VS_DRAW_SLOT: u32 = 13;
pub const VS_FLOAT_CONST_SLOT: u32 = 15;
pub const VS_POS_FIXUP_SLOT: u32 = 14;

macro_rules! names {
    ($($name:ident { $($value:ident),* $(,)? })*) => {
        $(
            #[derive(Clone, Copy, Debug, PartialEq, Eq)]
            pub enum $name {
                $($value,)*
            }
        )*
    };
}

names! {
    AddressMode { Repeat, MirrorRepeat, ClampToEdge, ClampToBorderColor, MirrorClampToEdge }
    BlendFactor {
        Zero, One, SourceColor, OneMinusSourceColor, SourceAlpha, OneMinusSourceAlpha,
        DestinationColor, OneMinusDestinationColor, DestinationAlpha, OneMinusDestinationAlpha,
        SourceAlphaSaturated, BlendColor, OneMinusBlendColor,
    }
    BlendOperation { Add, Subtract, ReverseSubtract, Min, Max }
    BorderColor { TransparentBlack, OpaqueBlack, OpaqueWhite }
    CompareFunc { Never, Less, Equal, LessEqual, Greater, NotEqual, GreaterEqual, Always }
    CullMode { None, Front, Back }
    IndexType { UInt16, UInt32 }
    MinMagFilter { Nearest, Linear }
    MipFilter { NotMipmapped, Nearest, Linear }
    PrimitiveType { Point, Line, LineStrip, Triangle, TriangleStrip }
    StencilOp {
        Keep, Zero, Replace, IncrementClamp, DecrementClamp, Invert, IncrementWrap, DecrementWrap,
    }
    TriangleFillMode { Fill, Lines }
    VertexFormat {
        Invalid, Float, Float2, Float3, Float4, UChar4, UChar4Normalized, UChar4NormalizedBgra,
        Short2, Short4, Short2Normalized, Short4Normalized, UShort2Normalized, UShort4Normalized,
        Half2, Half4,
    }
}

impl VertexFormat {
    #[must_use]
    pub const fn byte_size(self) -> u32 {
        match self {
            Self::Invalid => 0,
            Self::Float
            | Self::UChar4
            | Self::UChar4Normalized
            | Self::UChar4NormalizedBgra
            | Self::Short2
            | Self::Short2Normalized
            | Self::UShort2Normalized
            | Self::Half2 => 4,
            Self::Float2
            | Self::Short4
            | Self::Short4Normalized
            | Self::UShort4Normalized
            | Self::Half4 => 8,
            Self::Float3 => 12,
            Self::Float4 => 16,
        }
    }
}

bitflags! {
    #[derive(Clone, Copy, Debug, PartialEq, Eq)]
    pub struct ColorWriteMask: u8 {
        const ALPHA = 1 << 0;
        const BLUE = 1 << 1;
        const GREEN = 1 << 2;
        const RED = 1 << 3;
    }
}

//! Wrong versions of our answers, one at a time, that the driver must catch (`--bend NAME`).

/// A bend with its name, the call it bends, and the commands that must catch it.
pub struct Named {
    pub bend: Bend,
    pub name: &'static str,
    pub call: &'static str,
    pub commands: &'static [&'static str],
}

macro_rules! bends {
    ($($call:literal { $($bend:ident, $name:literal, $commands:expr;)* })*) => {
        #[derive(Clone, Copy, PartialEq, Eq)]
        pub enum Bend {
            $($($bend,)*)*
        }

        pub const BENDS: &[Named] = &[
            $($(Named { bend: Bend::$bend, name: $name, call: $call, commands: &$commands },)*)*
        ];
    };
}

bends! {
    "ff_sqrt" {
        SqrtUlp, "sqrt-ulp", ["sqrt", "root-vectors"];
        SqrtTruncated, "sqrt-truncated", ["sqrt"];
        SqrtNegativeZero, "sqrt-negative-zero", ["sqrt", "root-vectors"];
        SqrtNegative, "sqrt-negative", ["sqrt"];
        SqrtSubnormal, "sqrt-subnormal", ["sqrt", "root-vectors"];
        SqrtInfinity, "sqrt-infinity", ["sqrt"];
        SqrtNan, "sqrt-nan", ["sqrt"];
    }
    "ff_cos" {
        CosCoefficient, "cos-coefficient", ["cos", "cos-vectors"];
        CosHalfTurn, "cos-half-turn", ["cos"];
        CosClosedTest, "cos-closed-test", ["cos", "cos-vectors"];
        CosFused, "cos-fused", ["cos", "cos-vectors"];
        CosQuotient, "cos-quotient", ["cos", "cos-vectors"];
        CosInfinity, "cos-infinity", ["cos"];
        CosNan, "cos-nan", ["cos"];
    }
    "ff_mat_mul" {
        ProductFromZero, "product-from-zero", ["matrix"];
        ProductFused, "product-fused", ["matrix"];
        ProductPairwise, "product-pairwise", ["matrix"];
        ProductTransposed, "product-transposed", ["matrix"];
        ProductSwapped, "product-swapped", ["matrix"];
        ProductNan, "product-nan", ["matrix"];
        ProductLength, "product-length", ["lengths"];
        ProductOutLength, "product-out-length", ["lengths"];
        ProductWrites, "product-writes", ["lengths"];
    }
    "ff_transpose" {
        TransposeIdentity, "transpose-identity", ["matrix"];
        TransposeNan, "transpose-nan", ["matrix"];
        TransposeNegativeZero, "transpose-negative-zero", ["matrix"];
        TransposeLength, "transpose-length", ["lengths"];
        TransposeGuard, "transpose-guard", ["lengths", "matrix"];
    }
    "ff_inverse" {
        InverseAcceptsSingular, "inverse-accepts-singular", ["matrix"];
        InverseAcceptsInfinite, "inverse-accepts-infinite", ["matrix"];
        InverseRefusesTiny, "inverse-refuses-tiny", ["matrix"];
        InverseWrites, "inverse-writes", ["matrix", "lengths"];
        InverseNan, "inverse-nan", ["matrix"];
        InverseTransposed, "inverse-transposed", ["matrix"];
        InverseFused, "inverse-fused", ["matrix"];
        InverseFromZero, "inverse-from-zero", ["matrix"];
        InverseDivides, "inverse-divides", ["matrix"];
        InverseDeterminant, "inverse-determinant", ["matrix"];
        InverseLength, "inverse-length", ["lengths"];
        InverseOrder, "inverse-order", ["lengths"];
    }
    "ff_image_fresh" {
        FreshClean, "fresh-clean", ["calls"];
        FreshAlpha, "fresh-alpha", ["calls"];
        FreshLonger, "fresh-longer", ["calls"];
    }
    "ff_image_check" {
        CheckLength, "check-length", ["calls"];
        CheckDirty, "check-dirty", ["calls"];
        CheckDirtySix, "check-dirty-six", ["calls"];
        CheckZero, "check-zero", ["calls"];
        CheckHighest, "check-highest", ["calls"];
        CheckCount, "check-count", ["calls"];
        CheckOrder, "check-order", ["calls"];
        CheckEnable, "check-enable", ["calls"];
        CheckUnused, "check-unused", ["calls"];
        CheckEnabled, "check-enabled", ["calls"];
        CheckUndefined, "check-undefined", ["calls"];
        CheckNan, "check-nan", ["calls"];
        CheckMask, "check-mask", ["calls"];
        CheckMaskByte, "check-mask-byte", ["calls"];
        CheckFogStart, "check-fog-start", ["calls"];
        CheckFogEnd, "check-fog-end", ["calls"];
        CheckFogDensity, "check-fog-density", ["calls"];
        CheckOldLength, "check-old-length", ["calls"];
        CheckColorNan, "check-color-nan", ["calls"];
        CheckType, "check-type", ["calls"];
        CheckOneNan, "check-one-nan", ["calls"];
    }
    "ff_set_transform" {
        SetLengthBeforeImage, "set-length-before-image", ["calls"];
        SetLengthBeforeState, "set-length-before-state", ["calls"];
        SetStateBeforeImage, "set-state-before-image", ["calls"];
        SetStateCut, "set-state-cut", ["calls"];
        SetRefusesLast, "set-refuses-last", ["calls"];
        SetEqualKeepsClean, "set-equal-keeps-clean", ["calls"];
        SetRefusalMarks, "set-refusal-marks", ["calls"];
        ViewLeavesLights, "view-leaves-lights", ["calls"];
        BoneMarksWv, "bone-marks-wv", ["calls"];
        SetMarksAll, "set-marks-all", ["calls"];
        SetForgetsHighest, "set-forgets-highest", ["calls"];
        SetHighestOne, "set-highest-last", ["calls"];
        SetLastByte, "set-last-byte", ["calls"];
    }
    "ff_multiply_transform" {
        MultiplyForgetsHighest, "multiply-forgets-highest", ["calls"];
        MultiplySwapped, "multiply-swapped", ["calls"];
        MultiplyEqualKeepsClean, "multiply-equal-keeps-clean", ["calls"];
    }
    "ff_transform" {
        TransformLonger, "transform-longer", ["calls"];
        TransformRefusalIdentity, "transform-refusal-writes", ["calls"];
        TransformNan, "transform-nan", ["calls"];
        TransformTransposed, "transform-transposed", ["calls"];
    }
    "ff_world_palette_used" {
        PaletteUsedIndex, "palette-used-index", ["calls"];
        PaletteUsedCap, "palette-used-cap", ["calls"];
    }
    "ff_world_view_projection" {
        WvpFromRight, "wvp-from-right", ["calls"];
    }
    "ff_set_material" {
        MaterialNan, "material-nan", ["calls"];
        MaterialExchanged, "material-exchanged", ["calls"];
        MaterialNegativeZero, "material-negative-zero", ["calls"];
        MaterialFlushes, "material-flushes", ["calls"];
        MaterialRefusalWrites, "material-refusal-writes", ["calls"];
        MaterialEqualKeepsClean, "material-equal-keeps-clean", ["calls"];
        MaterialArgument, "material-argument", ["calls"];
    }
    "ff_material" {
        MaterialTakes, "material-read-takes", ["calls"];
    }
    "ff_set_light_at" {
        LightLengthBeforeFull, "light-length-before-full", ["calls"];
        LightFullOfStored, "light-full-of-stored", ["calls"];
        LightFullEarly, "light-full-early", ["calls"];
        LightFullDrops, "light-full-drops", ["calls"];
        LightAtNext, "light-at-next", ["calls"];
        LightIndexCut, "light-index-cut", ["calls"];
        LightClearsEnable, "light-clears-enable", ["calls"];
        LightTypeNan, "light-type-nan", ["calls"];
        LightLeavesClean, "light-leaves-clean", ["calls"];
        LightRefusesOdd, "light-drops-odd-type", ["calls"];
        LightEqualKeepsClean, "light-equal-keeps-clean", ["calls"];
    }
    "ff_set_light_enabled_at" {
        EnabledOne, "enabled-one-only", ["calls"];
        EnabledByte, "enabled-byte", ["calls"];
        EnableRaw, "enable-raw", ["calls"];
        EnableDropped, "enable-dropped", ["calls"];
        EnableAlpha, "enable-alpha", ["calls"];
        EnableCount, "enable-count", ["calls"];
        EnableEqualKeepsClean, "enable-equal-keeps-clean", ["calls"];
    }
    "ff_get_light_at" {
        GetLengthBeforeUndefined, "get-length-before-undefined", ["calls"];
        GetRefusalWrites, "get-refusal-writes", ["calls"];
        GetNan, "get-nan", ["calls"];
        GetEnabledOnly, "get-type-directional", ["calls"];
    }
    "ff_is_light_enabled_at" {
        IsEnabledRefusalNumber, "is-enabled-refusal-number", ["calls"];
        IsEnabledMask, "is-enabled-255", ["calls"];
    }
    "ff_is_light_defined_at" {
        IsDefinedEnabled, "is-defined-enabled", ["calls"];
    }
    "ff_vs_source_light_inputs" {
        SourceTag, "source-tag", ["calls"];
        SourceUnmasked, "source-unmasked", ["calls"];
        SourceFour, "source-four", ["calls"];
    }
    "ff_compacted_light_masks" {
        MasksExchanged, "masks-exchanged", ["calls"];
        MasksTag, "masks-tag", ["calls"];
        MasksSlots, "masks-slots", ["calls"];
        MasksFour, "masks-four", ["calls"];
    }
    "ff_set_fog_start" {
        FogStartClean, "fog-start-clean", ["calls"];
        FogStartEqualKeepsClean, "fog-start-equal-keeps-clean", ["calls"];
        FogStartNan, "fog-start-nan", ["calls"];
    }
    "ff_set_fog_end" {
        FogEndAtStart, "fog-end-at-start", ["calls"];
        FogEndMarksAmbient, "fog-end-marks-ambient", ["calls"];
    }
    "ff_set_fog_density" {
        FogDensityFlushes, "fog-density-flushes", ["calls"];
        FogDensityMarksAll, "fog-density-marks-all", ["calls"];
    }
    "ff_set_ambient" {
        AmbientMarksFog, "ambient-marks-fog", ["calls"];
        AmbientNan, "ambient-nan", ["calls"];
        AmbientEqualKeepsClean, "ambient-equal-keeps-clean", ["calls"];
    }
    "ff_set_texture_mask" {
        MaskEqualKeepsClean, "mask-equal-keeps-clean", ["calls"];
        MaskClean, "mask-clean", ["calls"];
        MaskAdds, "mask-adds", ["calls"];
        MaskSeven, "mask-seven", ["calls"];
        MaskRefusalWrites, "mask-refusal-writes", ["calls"];
    }
    "ff_mark_ff_vs_dirty" {
        MarkSeventh, "mark-seventh", ["calls"];
        MarkNinth, "mark-ninth", ["calls"];
        MarkByte, "mark-byte", ["calls"];
        MarkBitsBeforeImage, "mark-bits-before-image", ["calls"];
        MarkRefusalMarks, "mark-refusal-marks", ["calls"];
        MarkReplaces, "mark-replaces", ["calls"];
    }
    "ff_take_ff_vs_dirty" {
        TakeKeeps, "take-keeps", ["calls"];
        TakeForgets, "take-forgets", ["calls"];
        TakeGuard, "take-guard", ["calls"];
        TakeRefusalNumber, "take-refusal-number", ["calls"];
    }
    "ff_vs_row_count" {
        CountOff, "count-off", ["row-count", "packs"];
        CountFog, "count-fog", ["row-count"];
        CountRhwDropped, "count-rhw-dropped", ["row-count"];
        CountFlagLow, "count-flag-low", ["row-count"];
        CountCap, "count-cap", ["row-count"];
        CountPreview, "count-preview", ["row-count", "packs"];
        CountNoTextures, "count-no-textures", ["row-count", "packs", "calls"];
        CountTextureOff, "count-texture-off", ["row-count", "packs", "calls"];
        CountTexturesLit, "count-textures-lit", ["row-count", "packs"];
        CountRefusalNumber, "count-refusal-number", ["packs"];
    }
    "ff_wv_section_rows" {
        WvRowsOff, "wv-rows-off", ["calls", "packs"];
    }
    "ff_proj_section_rows" {
        ProjRowsNone, "proj-rows-none", ["calls", "packs"];
    }
    "ff_material_section_rows" {
        MaterialRowsUnlit, "material-rows-unlit", ["packs"];
    }
    "ff_lights_section_rows" {
        LightsRowsOnes, "lights-rows-ones", ["packs"];
        LightsRowsUnlit, "lights-rows-unlit", ["packs"];
        LightsRowsPreview, "lights-rows-preview", ["packs", "preview"];
    }
    "ff_palette_section_rows" {
        PaletteRowsCap, "palette-rows-cap", ["packs"];
        PaletteRowsExchanged, "palette-rows-exchanged", ["packs"];
    }
    "ff_tt_section_rows" {
        TtRowsStages, "tt-rows-stages", ["packs"];
        TtRowsOnes, "tt-rows-ones", ["calls", "packs"];
        TtRowsNone, "tt-rows-none", ["calls", "packs"];
        TtRowsTransformed, "tt-rows-transformed", ["packs"];
    }
    "ff_fog_section_rows" {
        FogRowsNone, "fog-rows-none", ["calls", "packs"];
    }
    "ff_ambient_section_rows" {
        AmbientRowsUnlit, "ambient-rows-unlit", ["packs"];
    }
    "ff_fill_wv_section" {
        WvUntransposed, "wv-untransposed", ["packs"];
        WvSwapped, "wv-swapped", ["packs"];
        WvIdentity, "wv-identity", ["packs"];
        WvNan, "wv-nan", ["packs"];
        WvLooksAtRhw, "wv-looks-at-rhw", ["packs"];
        WvRefusalWrites, "wv-refusal-writes", ["packs"];
        WvTakesBit, "wv-takes-bit", ["packs"];
        WvGuard, "wv-guard", ["packs"];
    }
    "ff_fill_proj_section" {
        ProjLonger, "proj-longer", ["packs"];
    }
    "ff_fill_material_section" {
        MaterialSwapped, "material-swapped", ["packs"];
        MaterialPower, "material-power", ["packs"];
        MaterialSpecularUnlit, "material-specular-unlit", ["packs"];
        MaterialFlagOne, "material-flag-one", ["packs"];
        MaterialFlagLow, "material-flag-low", ["packs"];
    }
    "ff_fill_lights_section" {
        LightsMaskFirst, "lights-mask-first", ["packs"];
        LightsMaskZero, "lights-mask-zero", ["packs"];
        LightsMaskSlots, "lights-mask-slots", ["packs"];
        LightsAnyLength, "lights-any-length", ["packs"];
        LightsUnlit, "lights-unlit", ["packs"];
        LightsLooksAtRhw, "lights-looks-at-rhw", ["packs"];
        LightsRefusalWrites, "lights-refusal-writes", ["packs"];
        LightsNan, "lights-nan", ["packs"];
        LightsKinds, "lights-kinds", ["packs"];
        LightsFalloff, "lights-falloff", ["packs"];
        LightsFalloffNan, "lights-falloff-nan", ["packs"];
        LightsAlpha, "lights-alpha", ["packs"];
        LightsOffset, "lights-offset", ["packs"];
        LightsRange, "lights-range", ["packs"];
        LightsScale, "lights-scale", ["packs"];
        LightsUnnormalized, "lights-unnormalized", ["packs"];
        LightsLong, "lights-long", ["packs"];
        LightsZeroSign, "lights-zero-sign", ["packs"];
        LightsRowsSwapped, "lights-rows-swapped", ["packs"];
        LightsReversed, "lights-reversed", ["packs"];
        LightsPreviewIgnored, "lights-preview-ignored", ["packs", "preview"];
        LightsPreviewLow, "lights-preview-low", ["packs", "preview"];
        LightsPreviewExchanged, "lights-preview-exchanged", ["packs", "preview"];
        LightsPreviewLast, "lights-preview-last", ["packs", "preview"];
        LightsPreviewEight, "lights-preview-eight", ["packs", "preview"];
        LightsPreviewEither, "lights-preview-either", ["packs", "preview"];
        LightsPreviewFive, "lights-preview-five", ["packs", "preview"];
    }
    "ff_fill_palette_section" {
        PaletteCap, "palette-cap", ["packs"];
        PaletteForty, "palette-forty-one", ["packs"];
        PaletteIndexedCount, "palette-indexed-count", ["packs"];
        PaletteIndexedAlways, "palette-indexed-always", ["packs"];
        PaletteAnyLength, "palette-any-length", ["packs"];
        PaletteUnviewed, "palette-unviewed", ["packs"];
        PaletteFirst, "palette-first", ["packs"];
    }
    "ff_fill_tt_section" {
        TtStages, "tt-stages", ["packs"];
        TtIdentity, "tt-identity", ["calls", "packs"];
        TtUntransposed, "tt-untransposed", ["packs"];
        TtFirst, "tt-first", ["calls", "packs"];
    }
    "ff_fill_fog_section" {
        FogAlways, "fog-always", ["calls", "packs"];
        FogLinearOnly, "fog-linear-only", ["calls", "packs"];
        FogModeLow, "fog-mode-low", ["calls", "packs"];
        FogOrder, "fog-order", ["calls", "packs"];
        FogFourth, "fog-fourth", ["calls", "packs"];
        FogAnyLength, "fog-any-length", ["packs"];
    }
    "ff_fill_ambient_section" {
        AmbientSwapped, "ambient-swapped", ["calls", "packs"];
        AmbientAlphaFirst, "ambient-alpha-first", ["calls", "packs"];
        AmbientOver256, "ambient-over-256", ["calls", "packs"];
        AmbientReciprocal, "ambient-reciprocal", ["calls"];
        AmbientOpaque, "ambient-opaque", ["calls", "packs"];
    }
    "ff_refresh" {
        RefreshKeepsBits, "refresh-keeps-bits", ["calls"];
        RefreshForgetsWv, "refresh-forgets-wv", ["calls"];
        RefreshForgetsProj, "refresh-forgets-proj", ["calls"];
        RefreshForgetsMaterial, "refresh-forgets-material", ["calls"];
        RefreshForgetsLights, "refresh-forgets-lights", ["calls"];
        RefreshForgetsPalette, "refresh-forgets-palette", ["calls"];
        RefreshForgetsTt, "refresh-forgets-tt", ["calls"];
        RefreshForgetsFog, "refresh-forgets-fog", ["calls"];
        RefreshForgetsAmbient, "refresh-forgets-ambient", ["calls"];
        RefreshTtLate, "refresh-tt-late", ["calls"];
        RefreshTtStages, "refresh-tt-stages", ["calls"];
        RefreshFogMode, "refresh-fog-mode", ["calls"];
        RefreshRowLate, "refresh-row-late", ["calls"];
        RefreshPaletteLate, "refresh-palette-late", ["calls"];
        RefreshLightsUnlit, "refresh-lights-unlit", ["calls"];
        RefreshFirstOnly, "refresh-first-only", ["calls"];
        RefreshAlways, "refresh-always", ["calls"];
        RefreshWhole, "refresh-whole", ["calls"];
        RefreshOneNan, "refresh-one-nan", ["calls"];
        RefreshBits, "refresh-bits", ["calls"];
        RefreshBitsLeft, "refresh-bits-left", ["calls"];
        RefreshMaskClean, "refresh-mask-clean", ["calls"];
        RefreshMaskZero, "refresh-mask-zero", ["calls"];
        RefreshMaskUnlit, "refresh-mask-unlit", ["calls"];
        RefreshRhwLow, "refresh-rhw-low", ["calls"];
        RefreshLengthBeforeImage, "refresh-length-before-image", ["calls"];
        RefreshRhwBeforeLength, "refresh-rhw-before-length", ["calls"];
        RefreshMaskBeforeRhw, "refresh-mask-before-rhw", ["calls"];
        RefreshMaskBeforeLength, "refresh-mask-before-length", ["calls"];
        RefreshLonger, "refresh-longer", ["calls"];
        RefreshRefusalWrites, "refresh-refusal-writes", ["calls"];
        RefreshMaskWrites, "refresh-mask-writes", ["calls"];
        RefreshRefusalTakes, "refresh-refusal-takes", ["calls"];
        RefreshRefusalNumber, "refresh-refusal-number", ["calls"];
        RefreshGuard, "refresh-guard", ["calls"];
        RefreshPreviewIgnored, "refresh-preview-ignored", ["calls", "preview"];
        RefreshPreviewLow, "refresh-preview-low", ["calls", "preview"];
        RefreshPreviewLast, "refresh-preview-last", ["calls", "preview"];
        RefreshPreviewEight, "refresh-preview-eight", ["calls", "preview"];
        RefreshPreviewWrites, "refresh-preview-writes", ["calls", "preview"];
    }
    "ff_state_fresh" {
        StateFreshClean, "state-fresh-clean", ["calls"];
    }
    "ff_state_read_image" {
        StateReadsRefused, "state-reads-refused", ["calls"];
    }
    "ff_state_set_transform" {
        StateSetsAnother, "state-sets-another", ["calls"];
    }
    "ff_state_multiply_transform" {
        StateMultiplySets, "state-multiply-sets", ["calls"];
    }
    "ff_state_set_material" {
        StateMaterialClean, "state-material-clean", ["calls"];
    }
    "ff_state_set_light_at" {
        StateLightNext, "state-light-next", ["calls"];
    }
    "ff_state_set_light_enabled_at" {
        StateEnablesAny, "state-enables-any", ["calls"];
    }
    "ff_state_set_fog_start" {
        StateFogStartClean, "state-fog-start-clean", ["calls"];
    }
    "ff_state_set_fog_end" {
        StateFogFlushes, "state-fog-flushes", ["calls"];
    }
    "ff_state_set_fog_density" {
        StateFogDensityClean, "state-fog-density-clean", ["calls"];
    }
    "ff_state_set_ambient" {
        StateAmbientSwapped, "state-ambient-swapped", ["calls"];
    }
    "ff_state_set_texture_mask" {
        StateMaskHalf, "state-mask-half", ["calls"];
        StateMaskClean, "state-mask-clean", ["calls"];
    }
    "ff_state_vs_source_light_inputs" {
        StateInputsFlag, "state-inputs-flag", ["calls"];
    }
    "ff_state_mark_ff_vs_dirty" {
        StateMarkMasks, "state-mark-masks", ["calls"];
    }
    "ff_state_take_ff_vs_dirty" {
        StateTakeLeaves, "state-take-leaves", ["calls"];
    }
    "ff_state_refresh" {
        StateRefreshLeaves, "state-refresh-leaves", ["calls"];
        StateRefusedTakes, "state-refused-takes", ["calls"];
        StateRefusedTells, "state-refused-tells", ["calls"];
        StateRefreshRow, "state-refresh-row", ["calls"];
        StateRefreshGuard, "state-refresh-guard", ["calls"];
        StateRefreshPreview, "state-refresh-preview", ["calls", "preview"];
        StateRefreshFog, "state-refresh-fog", ["calls"];
        DirectionUnscaled, "direction-unscaled", ["directions"];
        DirectionLastBit, "direction-last-bit", ["directions"];
        DirectionZeroSign, "direction-zero-sign", ["directions"];
        DirectionFlushed, "direction-flushed", ["directions"];
    }
}

pub fn named(name: &str) -> Option<Bend> {
    BENDS
        .iter()
        .find(|known| known.name == name)
        .map(|known| known.bend)
}

//! Cases of document 01 and what it says of a fresh state, of refusals and of images.

use ff_state::{
    ALL_DIRTY, Color, D3DLIGHT_POINT, D3DLIGHT_SPOT, D3DTS_PROJECTION, D3DTS_TEXTURE0, D3DTS_VIEW,
    D3DTS_WORLD, FfImage, Light, LightMasks, Material, Matrix, OVERFLOW_LIGHTS, Refusal, Vector,
};

fn moved(x: f32, y: f32, z: f32) -> Matrix {
    let mut m = Matrix::IDENTITY;
    m.m[3] = [x, y, z, 1.0];
    m
}

fn of_type(type_: u32) -> Light {
    Light {
        type_,
        ..Light::default()
    }
}

#[test]
fn a_fresh_state_reads_as_document_01_says() {
    let mut state = FfImage::fresh();
    let states = [
        D3DTS_VIEW,
        D3DTS_PROJECTION,
        D3DTS_TEXTURE0,
        23,
        D3DTS_WORLD,
        511,
    ];
    for number in states {
        assert_eq!(state.transform(number), Ok(Matrix::IDENTITY));
    }
    assert_eq!(state.material(), Material::default());
    assert_eq!(state.world_palette_used(), 1);
    for index in [0, 7, 8, u32::MAX] {
        assert_eq!(state.get_light_at(index), Err(Refusal::UndefinedLight));
        assert!(!state.is_light_defined_at(index));
        assert!(!state.is_light_enabled_at(index));
    }
    assert_eq!(state.vs_source_light_inputs(), 0);
    // Fog's three floats, the ambient colour and the texture mask.
    assert_eq!(state.as_bytes()[24_204..], [0; 20]);
    assert_eq!(state.take_ff_vs_dirty(), ALL_DIRTY);
    assert_eq!(state.take_ff_vs_dirty(), 0);
}

#[test]
fn p7_light_inputs() {
    let mut state = FfImage::fresh();
    state.set_light_enabled_at(0, true).unwrap();
    state.set_light_at(3, &of_type(D3DLIGHT_SPOT)).unwrap();
    state.set_light_enabled_at(3, true).unwrap();
    assert_eq!(state.vs_source_light_inputs(), 0x0008_0109);
    state.set_light_at(9, &of_type(D3DLIGHT_POINT)).unwrap();
    state.set_light_enabled_at(9, true).unwrap();
    assert_eq!(state.vs_source_light_inputs(), 0x0102_0107);
    let masks = LightMasks {
        active: 7,
        directional: 1,
        spot: 2,
    };
    assert_eq!(state.compacted_light_masks(), masks);
    state.set_light_enabled_at(9, false).unwrap();
    assert_eq!(state.vs_source_light_inputs(), 0x0102_0103);
}

#[test]
fn p8_transform_states() {
    let mut state = FfImage::fresh();
    let m = moved(1.0, 2.0, 3.0);
    for unknown in [0, 1, 4, 15, 24, 255, 512, u32::MAX] {
        let before = state.clone();
        assert_eq!(state.set_transform(unknown, &m), Err(Refusal::UnknownState));
        assert_eq!(
            state.multiply_transform(unknown, &m),
            Err(Refusal::UnknownState)
        );
        assert_eq!(state.transform(unknown), Err(Refusal::UnknownState));
        assert_eq!(state, before);
    }
    assert_eq!(state.world_palette_used(), 1);
    for known in [2, 3, 16, 23, 256, 511] {
        assert_eq!(state.set_transform(known, &m), Ok(()));
        assert_eq!(state.transform(known), Ok(m));
    }
    assert_eq!(state.world_palette_used(), 256);
}

#[test]
fn p9_room_for_lights() {
    let mut state = FfImage::fresh();
    for i in 0..OVERFLOW_LIGHTS as u32 {
        assert_eq!(state.set_light_at(8 + 2 * i, &Light::default()), Ok(()));
    }
    let before = state.clone();
    assert_eq!(
        state.set_light_at(9, &Light::default()),
        Err(Refusal::LightsFull)
    );
    assert_eq!(
        state.set_light_enabled_at(9, true),
        Err(Refusal::LightsFull)
    );
    assert_eq!(state, before);
    // A stored index and the slots below 8 need no room.
    assert_eq!(state.set_light_at(8, &of_type(D3DLIGHT_POINT)), Ok(()));
    assert_eq!(state.set_light_enabled_at(7, true), Ok(()));
}

#[test]
fn each_change_dirties_its_sections() {
    let mut state = FfImage::fresh();
    state.take_ff_vs_dirty();
    let sections = [
        (2, 1 + 8 + 16),
        (3, 2),
        (16, 32),
        (23, 32),
        (256, 1 + 16),
        (257, 16),
        (511, 16),
    ];
    for (number, bits) in sections {
        // An equal value still dirties.
        state.set_transform(number, &Matrix::IDENTITY).unwrap();
        assert_eq!(state.take_ff_vs_dirty(), bits);
        state.multiply_transform(number, &Matrix::IDENTITY).unwrap();
        assert_eq!(state.take_ff_vs_dirty(), bits);
    }
    state.set_material(&Material::default());
    assert_eq!(state.take_ff_vs_dirty(), 4);
    state.set_light_at(0, &Light::default()).unwrap();
    assert_eq!(state.take_ff_vs_dirty(), 8);
    state.set_light_enabled_at(70, false).unwrap();
    assert_eq!(state.take_ff_vs_dirty(), 8);
    assert_eq!(state.mark_ff_vs_dirty(256), Err(Refusal::UnknownBits));
    assert_eq!(state.mark_ff_vs_dirty(255), Ok(()));
    assert_eq!(state.take_ff_vs_dirty(), 255);
}

/// Document 02, T-02.
#[test]
fn multiply_stores_argument_times_slot() {
    let mut state = FfImage::fresh();
    let mut doubled = Matrix::IDENTITY;
    for i in 0..3 {
        doubled.m[i][i] = 2.0;
    }
    state
        .set_transform(D3DTS_WORLD, &moved(1.0, 0.0, 0.0))
        .unwrap();
    state.multiply_transform(D3DTS_WORLD, &doubled).unwrap();
    let product = state.transform(D3DTS_WORLD).unwrap();
    assert_eq!(product.m[3], [1.0, 0.0, 0.0, 1.0]);
    state
        .set_transform(D3DTS_VIEW, &moved(0.0, 3.0, 0.0))
        .unwrap();
    assert_eq!(state.world_view_projection().m[3], [1.0, 3.0, 0.0, 1.0]);
}

#[test]
fn lights_are_read_back() {
    let mut state = FfImage::fresh();
    let light = Light {
        type_: 0x7F80_0001,
        diffuse: Color {
            r: 0.25,
            g: 0.5,
            b: 0.75,
            a: -0.0,
        },
        range: f32::INFINITY,
        attenuation: [1.0, 2.0, f32::MIN_POSITIVE / 2.0],
        phi: 3.0,
        ..Light::default()
    };
    for index in [5, 4_000_000_000] {
        state.set_light_enabled_at(index, true).unwrap();
        assert_eq!(state.get_light_at(index), Ok(Light::default()));
        // Setting keeps the enable, and any type is stored.
        state.set_light_at(index, &light).unwrap();
        assert_eq!(state.get_light_at(index), Ok(light));
        assert!(state.is_light_enabled_at(index));
        assert!(state.is_light_defined_at(index));
    }
    assert_eq!(state.compacted_light_masks().active, 0);
}

/// "Light: type, diffuse, specular, ambient (rgba each), position, direction, range, falloff, attenuation 0 to 2,
/// theta, phi", and a material in the order of the image.
#[test]
fn records_cross_in_document_01s_orders() {
    let color = |first: f32| Color {
        r: first,
        g: first + 1.0,
        b: first + 2.0,
        a: first + 3.0,
    };
    let vector = |first: f32| Vector {
        x: first,
        y: first + 1.0,
        z: first + 2.0,
    };
    let floats = |bytes: &[u8]| -> Vec<f32> {
        let fours = bytes.as_chunks().0.iter();
        fours.map(|four| f32::from_le_bytes(*four)).collect()
    };
    let counted = |count: u32| -> Vec<f32> { (1..=count).map(|i| i as f32).collect() };

    let light = Light {
        type_: 0x0102_0304,
        diffuse: color(1.0),
        specular: color(5.0),
        ambient: color(9.0),
        position: vector(13.0),
        direction: vector(16.0),
        range: 19.0,
        falloff: 20.0,
        attenuation: [21.0, 22.0, 23.0],
        theta: 24.0,
        phi: 25.0,
    };
    let bytes = light.to_bytes();
    assert_eq!(bytes[..4], [4, 3, 2, 1]);
    assert_eq!(floats(&bytes[4..]), counted(25));
    assert_eq!(Light::from_bytes(&bytes), light);

    let material = Material {
        diffuse: color(1.0),
        ambient: color(5.0),
        specular: color(9.0),
        emissive: color(13.0),
        power: 17.0,
    };
    let bytes = material.to_bytes();
    assert_eq!(floats(&bytes), counted(17));
    assert_eq!(Material::from_bytes(&bytes), material);

    let mut matrix = Matrix::IDENTITY;
    for (i, entry) in matrix.m.as_flattened_mut().iter_mut().enumerate() {
        *entry = (i + 1) as f32;
    }
    let bytes = matrix.to_bytes();
    assert_eq!(floats(&bytes), counted(16));
    assert_eq!(Matrix::from_bytes(&bytes), matrix);
}

#[test]
fn a_nan_has_one_pattern() {
    let mut state = FfImage::fresh();
    let material = Material {
        power: f32::from_bits(0xFF80_0001),
        ..Material::default()
    };
    state.set_material(&material);
    assert_eq!(state.material().power.to_bits(), 0x7FC0_0000);
    assert_eq!(
        state.as_bytes()[17_024 + 64..17_024 + 68],
        [0, 0, 0xC0, 0x7F]
    );
}

#[test]
fn bytes_that_are_no_image_are_refused() {
    let state = FfImage::fresh();
    let bytes = state.as_bytes();
    assert_eq!(FfImage::from_bytes(bytes), Ok(state.clone()));
    assert_eq!(FfImage::from_bytes(&[]), Err(Refusal::NoImage));
    assert_eq!(FfImage::from_bytes(&bytes[1..]), Err(Refusal::NoImage));
    assert_eq!(
        FfImage::from_bytes(&[&bytes[..], &[0]].concat()),
        Err(Refusal::NoImage)
    );
    // Enabled but undefined, the zero byte, the palette index, the count, an unused entry, an
    // undefined slot's type, another NaN.
    let damages = [
        (17_924, 1),
        (17_927, 1),
        (17_929, 1),
        (17_930, 1),
        (24_203, 1),
        (17_092, 1),
    ];
    for (at, byte) in damages {
        let mut damaged = *bytes;
        damaged[at] = byte;
        assert_eq!(
            FfImage::from_bytes(&damaged),
            Err(Refusal::NoImage),
            "byte {at}"
        );
    }
    let mut damaged = *bytes;
    damaged[..4].copy_from_slice(&0x7FC0_0001u32.to_le_bytes());
    assert_eq!(FfImage::from_bytes(&damaged), Err(Refusal::NoImage));
    damaged[..4].copy_from_slice(&0x7FC0_0000u32.to_le_bytes());
    assert!(FfImage::from_bytes(&damaged).is_ok());
}

#[test]
fn an_image_that_is_read_brings_its_own_palette_index() {
    let mut bytes = *FfImage::fresh().as_bytes();
    bytes[17_928] = 99;
    assert_eq!(
        FfImage::from_bytes(&bytes).unwrap().world_palette_used(),
        100
    );
}

#[test]
fn arithmetic() {
    let m = moved(5.0, 6.0, 7.0);
    assert_eq!(ff_state::transpose(&m).m[0], [1.0, 0.0, 0.0, 5.0]);
    assert_eq!(ff_state::inverse(&m), Ok(moved(-5.0, -6.0, -7.0)));
    assert_eq!(ff_state::mat_mul(&m, &m).m[3], [10.0, 12.0, 14.0, 1.0]);
    assert_eq!(
        ff_state::inverse(&Matrix { m: [[0.0; 4]; 4] }),
        Err(Refusal::Singular)
    );
    assert_eq!(ff_state::sqrt(2.0), 2f32.sqrt());
    assert_eq!(ff_state::sqrt(-1.0).to_bits(), 0x7FC0_0000);
    assert_eq!(ff_state::cos(0.0), 1.0);
}

#[test]
fn a_refusal_has_its_number_and_words() {
    let refusal = FfImage::from_bytes(&[]).unwrap_err();
    assert_eq!(refusal.number(), 9);
    assert_eq!(
        refusal.to_string(),
        "refused 9: the bytes are no state image"
    );
}

//! Matrices, materials and lights, and the bytes that they cross as: four little-endian bytes a number. In memory they lie as C
//! has them, number by number, so that a state in memory takes them by reference.

/// A light whose rays start at its position.
pub const D3DLIGHT_POINT: u32 = 1;
/// A point light with a cone.
pub const D3DLIGHT_SPOT: u32 = 2;
/// A light whose rays are parallel.
pub const D3DLIGHT_DIRECTIONAL: u32 = 3;

/// A 4 × 4 matrix, row by row.
#[repr(C)]
#[derive(Clone, Copy, Debug, PartialEq)]
pub struct Matrix {
    /// Row i, column j is `m[i][j]`.
    pub m: [[f32; 4]; 4],
}

/// Four channels.
#[repr(C)]
#[derive(Clone, Copy, Debug, Default, PartialEq)]
pub struct Color {
    /// Red.
    pub r: f32,
    /// Green.
    pub g: f32,
    /// Blue.
    pub b: f32,
    /// Alpha.
    pub a: f32,
}

/// A place or a direction.
#[repr(C)]
#[derive(Clone, Copy, Debug, Default, PartialEq)]
pub struct Vector {
    /// The first coordinate.
    pub x: f32,
    /// The second.
    pub y: f32,
    /// The third.
    pub z: f32,
}

/// `D3DMATERIAL9`; a fresh state's has zeros alone.
#[repr(C)]
#[derive(Clone, Copy, Debug, Default, PartialEq)]
pub struct Material {
    /// Of light that falls on the surface.
    pub diffuse: Color,
    /// Of light from everywhere.
    pub ambient: Color,
    /// Of highlights.
    pub specular: Color,
    /// Of light that the surface gives off.
    pub emissive: Color,
    /// How sharp highlights are.
    pub power: f32,
}

/// `D3DLIGHT9`. A type other than point, spot and directional is stored, and lights nothing.
#[repr(C)]
#[derive(Clone, Copy, Debug, PartialEq)]
pub struct Light {
    /// [`D3DLIGHT_POINT`], [`D3DLIGHT_SPOT`], [`D3DLIGHT_DIRECTIONAL`], or any other number.
    pub type_: u32,
    /// Its light on a surface that faces it.
    pub diffuse: Color,
    /// Its light in highlights.
    pub specular: Color,
    /// Its light everywhere.
    pub ambient: Color,
    /// Where it stands, in world space.
    pub position: Vector,
    /// Where it shines, in world space; of any length.
    pub direction: Vector,
    /// How far it reaches.
    pub range: f32,
    /// How a spot fades from the inner cone to the outer.
    pub falloff: f32,
    /// How it fades with distance: constant, linear, quadratic.
    pub attenuation: [f32; 3],
    /// The angle of a spot's inner cone, in radians.
    pub theta: f32,
    /// The angle of a spot's outer cone, in radians.
    pub phi: f32,
}

impl Default for Light {
    /// The light that enabling an undefined one creates: directional, white without alpha, along z.
    fn default() -> Self {
        Self {
            type_: D3DLIGHT_DIRECTIONAL,
            diffuse: Color {
                r: 1.0,
                g: 1.0,
                b: 1.0,
                a: 0.0,
            },
            specular: Color::default(),
            ambient: Color::default(),
            position: Vector::default(),
            direction: Vector {
                x: 0.0,
                y: 0.0,
                z: 1.0,
            },
            range: 0.0,
            falloff: 0.0,
            attenuation: [0.0; 3],
            theta: 0.0,
            phi: 0.0,
        }
    }
}

/// The bytes of N numbers.
fn bytes<const N: usize, const BYTES: usize>(numbers: [u32; N]) -> [u8; BYTES] {
    const { assert!(4 * N == BYTES) };
    let mut bytes = [0; BYTES];
    for (four, number) in bytes.as_chunks_mut().0.iter_mut().zip(numbers) {
        *four = number.to_le_bytes();
    }
    bytes
}

/// The N numbers of bytes.
fn numbers<const N: usize, const BYTES: usize>(bytes: &[u8; BYTES]) -> [u32; N] {
    const { assert!(4 * N == BYTES) };
    let fours = bytes.as_chunks().0;
    core::array::from_fn(|i| u32::from_le_bytes(fours[i]))
}

fn floats<const N: usize, const BYTES: usize>(bytes: &[u8; BYTES]) -> [f32; N] {
    numbers(bytes).map(f32::from_bits)
}

impl Matrix {
    /// The bytes of a matrix.
    pub const BYTES: usize = 64;

    /// 1 on the diagonal, 0 elsewhere.
    pub const IDENTITY: Self = Self {
        m: [
            [1.0, 0.0, 0.0, 0.0],
            [0.0, 1.0, 0.0, 0.0],
            [0.0, 0.0, 1.0, 0.0],
            [0.0, 0.0, 0.0, 1.0],
        ],
    };

    /// The bytes that cross.
    #[must_use]
    pub fn to_bytes(&self) -> [u8; Self::BYTES] {
        bytes::<16, _>(core::array::from_fn(|i| self.m[i / 4][i % 4].to_bits()))
    }

    /// The matrix that such bytes mean.
    #[must_use]
    pub fn from_bytes(bytes: &[u8; Self::BYTES]) -> Self {
        let floats = floats::<16, _>(bytes);
        Self {
            m: core::array::from_fn(|i| core::array::from_fn(|j| floats[4 * i + j])),
        }
    }
}

impl Color {
    const fn rgba(self) -> [f32; 4] {
        [self.r, self.g, self.b, self.a]
    }

    const fn of([r, g, b, a]: [f32; 4]) -> Self {
        Self { r, g, b, a }
    }
}

impl Vector {
    const fn xyz(self) -> [f32; 3] {
        [self.x, self.y, self.z]
    }
}

impl Material {
    /// The bytes of a material.
    pub const BYTES: usize = 68;

    /// The bytes that cross.
    #[must_use]
    pub fn to_bytes(&self) -> [u8; Self::BYTES] {
        let colors = [self.diffuse, self.ambient, self.specular, self.emissive];
        let colors = colors.map(Color::rgba);
        let float = |i: usize| colors.as_flattened().get(i).copied().unwrap_or(self.power);
        bytes::<17, _>(core::array::from_fn(|i| float(i).to_bits()))
    }

    /// The material that such bytes mean.
    #[must_use]
    pub fn from_bytes(bytes: &[u8; Self::BYTES]) -> Self {
        let floats = floats::<17, _>(bytes);
        let color = |i: usize| Color::of(core::array::from_fn(|k| floats[4 * i + k]));
        Self {
            diffuse: color(0),
            ambient: color(1),
            specular: color(2),
            emissive: color(3),
            power: floats[16],
        }
    }
}

impl Light {
    /// The bytes of a light.
    pub const BYTES: usize = 104;

    /// The bytes that cross.
    #[must_use]
    pub fn to_bytes(&self) -> [u8; Self::BYTES] {
        let mut numbers = [self.type_; 26];
        let floats = [self.diffuse, self.specular, self.ambient]
            .into_iter()
            .flat_map(Color::rgba)
            .chain(
                [self.position, self.direction]
                    .into_iter()
                    .flat_map(Vector::xyz),
            )
            .chain([self.range, self.falloff])
            .chain(self.attenuation)
            .chain([self.theta, self.phi]);
        for (number, float) in numbers[1..].iter_mut().zip(floats) {
            *number = float.to_bits();
        }
        bytes(numbers)
    }

    /// The light that such bytes mean.
    #[must_use]
    pub fn from_bytes(bytes: &[u8; Self::BYTES]) -> Self {
        let numbers = numbers::<26, _>(bytes);
        let float = |i: usize| f32::from_bits(numbers[i]);
        let color = |at: usize| Color::of(core::array::from_fn(|k| float(at + k)));
        let vector = |at| Vector {
            x: float(at),
            y: float(at + 1),
            z: float(at + 2),
        };
        Self {
            type_: numbers[0],
            diffuse: color(1),
            specular: color(5),
            ambient: color(9),
            position: vector(13),
            direction: vector(16),
            range: float(19),
            falloff: float(20),
            attenuation: [float(21), float(22), float(23)],
            theta: float(24),
            phi: float(25),
        }
    }
}

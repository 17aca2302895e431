//! The crates whose archives are the library, said once: .ci/build makes target/staticlib/libNAME.a of the exports in NAME_c.
//! The build scripts here, of the driver and of the benchmark take it, and .ci/archives prints it.

pub const ARCHIVES: [&str; 6] = [
    "host",
    "lent_state",
    "lent_transforms",
    "lent_lights",
    "lent_images",
    "lent_refresh",
];

//! A key as words: `lighting_enabled=1 light_active_mask=auto`.

use ff_state::{FfImage, VsKey};

use crate::words::{cut, number};

struct Field {
    name: &'static str,
    most: u32,
    get: fn(&VsKey) -> u8,
    set: fn(&mut VsKey, u8),
    /// Document 01's shape fields: all but HAS_RHW since document 02's T-05.
    shape: bool,
}

macro_rules! flag {
    ($name:ident, $shape:expr) => {
        Field {
            name: stringify!($name),
            most: 1,
            get: |key| u8::from(key.$name),
            set: |key, value| key.$name = value != 0,
            shape: $shape,
        }
    };
}

macro_rules! byte {
    ($name:ident) => {
        Field {
            name: stringify!($name),
            most: 255,
            get: |key| key.$name,
            set: |key, value| key.$name = value,
            shape: true,
        }
    };
}

const FIELDS: [Field; 8] = [
    flag!(has_rhw, false),
    flag!(lighting_enabled, true),
    flag!(specular_enable, true),
    flag!(vertex_blend_indexed, true),
    flag!(preview, true),
    byte!(light_active_mask),
    byte!(fog_mode),
    byte!(vertex_blend_count),
];

/// The words of a key, for the tools' helps.
pub const HELP: &str = "\
A KEY is words NAME=NUMBER, each name once at most; what is left out is 0:
  has_rhw  lighting_enabled  specular_enable  vertex_blend_indexed  preview    0 or 1
  fog_mode  vertex_blend_count                                                 0 to 255
  light_active_mask    0 to 255, or auto: that of the lights that are packed
";

/// A key that was read; its mask may have to be taken from a state.
#[derive(Clone, Copy, Debug)]
pub struct KeyWords {
    key: VsKey,
    auto_mask: bool,
}

impl KeyWords {
    /// The key over a state.
    #[must_use]
    pub fn on(&self, image: &FfImage) -> VsKey {
        if self.auto_mask {
            with_mask_of(image, &self.key)
        } else {
            self.key
        }
    }
}

/// The key with the mask that is accepted over a state: that of the lights that light, for a preview of the first four.
#[must_use]
pub fn with_mask_of(image: &FfImage, key: &VsKey) -> VsKey {
    let active = image.compacted_light_masks().active;
    VsKey {
        light_active_mask: if key.preview { active & 15 } else { active },
        ..*key
    }
}

/// A key from its words.
pub fn read<'a>(words: impl IntoIterator<Item = &'a str>) -> Result<KeyWords, String> {
    let mut read = KeyWords {
        key: VsKey::default(),
        auto_mask: false,
    };
    let mut met = [false; FIELDS.len()];
    for word in words {
        let (name, value) = word.split_once('=').unwrap_or((word, ""));
        let place = FIELDS.iter().position(|field| field.name == name);
        let Some(place) = place.filter(|_| word.contains('=')) else {
            let names: Vec<&str> = FIELDS.iter().map(|field| field.name).collect();
            return Err(format!(
                "'{}' is no word of a key: write NAME=NUMBER with one of {}",
                cut(word),
                names.join(", ")
            ));
        };
        if std::mem::replace(&mut met[place], true) {
            return Err(format!("{name} stands twice in the key: write it once"));
        }
        if name == "light_active_mask" && value == "auto" {
            read.auto_mask = true;
            continue;
        }
        let value = number(value, FIELDS[place].most).map_err(|why| format!("{name}: {why}"))?;
        (FIELDS[place].set)(&mut read.key, value as u8);
    }
    Ok(read)
}

/// The key's words, those of 0 left out.
#[must_use]
pub fn words(key: &VsKey) -> String {
    let set = FIELDS.iter().filter(|field| (field.get)(key) != 0);
    let words: Vec<String> = set
        .map(|field| format!("{}={}", field.name, (field.get)(key)))
        .collect();
    if words.is_empty() {
        "(all fields 0)".into()
    } else {
        words.join(" ")
    }
}

/// The shape fields in which two keys differ: "lighting_enabled 0 -> 1".
#[must_use]
pub fn shape_changes(before: &VsKey, after: &VsKey) -> Vec<String> {
    let shape = FIELDS.iter().filter(|field| field.shape);
    let changed = shape.map(|field| (field.name, (field.get)(before), (field.get)(after)));
    changed
        .filter(|(_, a, b)| a != b)
        .map(|(name, a, b)| format!("{name} {a} -> {b}"))
        .collect()
}

#[cfg(test)]
mod tests {
    use super::*;

    fn of(words: &str) -> Result<VsKey, String> {
        read(words.split_whitespace()).map(|key| key.on(&FfImage::fresh()))
    }

    #[test]
    fn each_name_sets_its_field() {
        let all = "has_rhw=1 lighting_enabled=1 specular_enable=1 vertex_blend_indexed=1 preview=1 light_active_mask=7 fog_mode=3 vertex_blend_count=255";
        let key = VsKey {
            has_rhw: true,
            lighting_enabled: true,
            specular_enable: true,
            vertex_blend_indexed: true,
            preview: true,
            light_active_mask: 7,
            fog_mode: 3,
            vertex_blend_count: 255,
        };
        assert_eq!(of(all), Ok(key));
        assert_eq!(
            (words(&key).as_str(), words(&VsKey::default()).as_str()),
            (all, "(all fields 0)")
        );
        assert_eq!(of(""), Ok(VsKey::default()));
        // Every field but has_rhw is of the shape, the fifth flag (T-01) and fog_mode (T-05) too.
        let changes = shape_changes(&VsKey::default(), &key);
        assert_eq!(changes.len(), 7);
        assert!(!changes.concat().contains("has_rhw"));
    }

    #[test]
    fn an_automatic_mask_is_that_of_the_lights_packed() {
        let mut image = FfImage::fresh();
        for index in 0..6 {
            image.set_light_enabled_at(index, true).unwrap();
        }
        let key = |words: &str| read(words.split_whitespace()).unwrap().on(&image);
        assert_eq!(key("light_active_mask=auto").light_active_mask, 0x3F);
        assert_eq!(
            key("preview=1 light_active_mask=auto").light_active_mask,
            0x0F
        );
    }

    #[test]
    fn other_words_are_errors() {
        for (words, why) in [
            ("lit=1", "'lit=1' is no word of a key"),
            ("preview", "'preview' is no word of a key"),
            ("preview=2", "preview: 2 is too large: write 1 at most"),
            (
                "fog_mode=256",
                "fog_mode: 256 is too large: write 255 at most",
            ),
            ("fog_mode=auto", "fog_mode: 'auto' is no number"),
            ("fog_mode=", "fog_mode: '' is no number"),
            ("preview=1 preview=1", "preview stands twice"),
        ] {
            let told = of(words).unwrap_err();
            assert!(told.starts_with(why), "{told}");
        }
    }
}

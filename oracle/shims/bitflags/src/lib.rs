//! Stands in for the crate `bitflags`: one word of named bits, with the operations that the
//! original uses.

/// Declares a struct of named bits over an unsigned word.
#[macro_export]
macro_rules! bitflags {
    (
        $(#[$attr:meta])*
        $vis:vis struct $name:ident: $word:ty {
            $($(#[$flag_attr:meta])* const $flag:ident = $value:expr;)*
        }
    ) => {
        $(#[$attr])*
        $vis struct $name($word);

        #[allow(dead_code)]
        impl $name {
            $($(#[$flag_attr])* pub const $flag: Self = Self($value);)*

            pub const fn empty() -> Self {
                Self(0)
            }

            pub const fn all() -> Self {
                Self(0 $(| Self::$flag.0)*)
            }

            pub const fn bits(&self) -> $word {
                self.0
            }

            pub const fn contains(&self, other: Self) -> bool {
                self.0 & other.0 == other.0
            }

            pub const fn union(self, other: Self) -> Self {
                Self(self.0 | other.0)
            }

            pub fn insert(&mut self, other: Self) {
                self.0 |= other.0;
            }

            pub fn set(&mut self, other: Self, value: bool) {
                if value {
                    self.0 |= other.0;
                } else {
                    self.0 &= !other.0;
                }
            }
        }

        impl ::core::ops::BitOr for $name {
            type Output = Self;

            fn bitor(self, other: Self) -> Self {
                Self(self.0 | other.0)
            }
        }

        impl ::core::ops::BitOrAssign for $name {
            fn bitor_assign(&mut self, other: Self) {
                self.0 |= other.0;
            }
        }
    };
}

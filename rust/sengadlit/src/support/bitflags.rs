//! What the crate bitflags writes for a flag type, as far as anyone here takes it.

/// Writes the constants of a flag type, its list of them, its methods, operators and formats.
macro_rules! bitflag_items {
    (impl $name:ident: $bits:ty {
        $($(#[$attribute:meta])* const $flag:ident = $value:expr;)*
    }) => {
        impl $name {
            $($(#[$attribute])* pub const $flag: Self = $name($value);)*

            /// The flags that there are, with their names.
            pub const FLAGS: &'static [(&'static str, Self)] = &[$((stringify!($flag), Self::$flag)),*];

            const KNOWN: $bits = 0 $(| Self::$flag.0)*;

            /// No flag.
            #[inline]
            pub const fn empty() -> Self {
                $name(0)
            }

            /// Every flag.
            #[inline]
            pub const fn all() -> Self {
                $name(Self::KNOWN)
            }

            /// The bits of the set.
            #[inline]
            pub const fn bits(&self) -> $bits {
                self.0
            }

            /// The set of these bits; None if one of them belongs to no flag.
            #[inline]
            pub const fn from_bits(bits: $bits) -> Option<Self> {
                if bits & !Self::KNOWN == 0 { Some($name(bits)) } else { None }
            }

            /// The set of these bits without those that belong to no flag.
            #[inline]
            pub const fn from_bits_truncate(bits: $bits) -> Self {
                $name(bits & Self::KNOWN)
            }

            /// The set of exactly these bits, also of those that belong to no flag.
            #[inline]
            pub const fn from_bits_retain(bits: $bits) -> Self {
                $name(bits)
            }

            /// Whether no bit is set.
            #[inline]
            pub const fn is_empty(&self) -> bool {
                self.0 == 0
            }

            /// Whether every flag is set.
            #[inline]
            pub const fn is_all(&self) -> bool {
                self.0 & Self::KNOWN == Self::KNOWN
            }

            /// Whether some bit of `other` is set.
            #[inline]
            pub const fn intersects(&self, other: Self) -> bool {
                self.0 & other.0 != 0
            }

            /// Whether every bit of `other` is set.
            #[inline]
            pub const fn contains(&self, other: Self) -> bool {
                self.0 & other.0 == other.0
            }

            /// Adds the bits of `other`.
            #[inline]
            pub const fn insert(&mut self, other: Self) {
                self.0 |= other.0;
            }

            /// Takes the bits of `other` away.
            #[inline]
            pub const fn remove(&mut self, other: Self) {
                self.0 &= !other.0;
            }

            /// Adds the bits of `other`, or takes them away.
            #[inline]
            pub const fn set(&mut self, other: Self, value: bool) {
                if value { self.insert(other) } else { self.remove(other) }
            }

            /// The bits that one set has, or both.
            #[inline]
            #[must_use]
            pub const fn union(self, other: Self) -> Self {
                $name(self.0 | other.0)
            }

            /// The bits that both sets have.
            #[inline]
            #[must_use]
            pub const fn intersection(self, other: Self) -> Self {
                $name(self.0 & other.0)
            }

            /// The bits that this set has and `other` hasn't.
            #[inline]
            #[must_use]
            pub const fn difference(self, other: Self) -> Self {
                $name(self.0 & !other.0)
            }

            /// The bits that one set has and not both.
            #[inline]
            #[must_use]
            pub const fn symmetric_difference(self, other: Self) -> Self {
                $name(self.0 ^ other.0)
            }

            /// The flags that the set hasn't.
            #[inline]
            #[must_use]
            pub const fn complement(self) -> Self {
                Self::from_bits_truncate(!self.0)
            }
        }

        impl core::ops::Not for $name {
            type Output = Self;

            #[inline]
            fn not(self) -> Self {
                self.complement()
            }
        }

        $crate::support::bitflags::bitflag_operators! { $name:
            BitOr, bitor, union, BitOrAssign, bitor_assign;
            BitAnd, bitand, intersection, BitAndAssign, bitand_assign;
            BitXor, bitxor, symmetric_difference, BitXorAssign, bitxor_assign;
            Sub, sub, difference, SubAssign, sub_assign;
        }
        $crate::support::bitflags::bitflag_formats! { $name: Binary, Octal, LowerHex, UpperHex }
    };
}

/// Writes the operators of a flag type: those of its methods.
macro_rules! bitflag_operators {
    ($name:ident: $($operator:ident, $call:ident, $method:ident, $assign:ident, $assign_call:ident;)*) => {
        $(
            impl core::ops::$operator for $name {
                type Output = Self;

                #[inline]
                fn $call(self, other: Self) -> Self {
                    self.$method(other)
                }
            }

            impl core::ops::$assign for $name {
                #[inline]
                fn $assign_call(&mut self, other: Self) {
                    *self = self.$method(other);
                }
            }
        )*
    };
}

/// Writes the formats of a flag type: those of its number.
macro_rules! bitflag_formats {
    ($name:ident: $($format:ident),*) => {
        $(impl core::fmt::$format for $name {
            fn fmt(&self, f: &mut core::fmt::Formatter<'_>) -> core::fmt::Result {
                core::fmt::$format::fmt(&self.0, f)
            }
        })*
    };
}

pub(crate) use {bitflag_formats, bitflag_items, bitflag_operators};

#[cfg(test)]
mod tests;

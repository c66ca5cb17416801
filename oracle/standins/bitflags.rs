//! Stands in for bitflags 1: the set's type, its named flags, `bits` and `from_bits`.
#![no_std]

#[macro_export]
macro_rules! bitflags {
    (pub struct $set:ident: $int:ty { $(const $flag:ident = $value:expr;)* }) => {
        #[derive(Copy, Clone, PartialEq, Eq)]
        pub struct $set {
            bits: $int,
        }

        impl $set {
            $(pub const $flag: $set = $set { bits: $value };)*

            pub const fn bits(&self) -> $int {
                self.bits
            }

            /// The set of these bits, if each belongs to a named flag.
            pub const fn from_bits(bits: $int) -> Option<$set> {
                let named: $int = 0 $(| $value)*;
                if bits & !named == 0 { Some($set { bits }) } else { None }
            }
        }
    };
}

//! Reconstructed: used where the checkout has no src/macros.rs. The shapes are those that the uses
//! determine; the bodies follow the hand-written `CrcRegister` and `EccStatusRegister` in
//! src/memory/chip.rs.

/// A register word is its 32 bits.
macro_rules! impl_to_from_u32 {
    ($register:ident) => {
        impl From<u32> for $register {
            fn from(word: u32) -> Self {
                Self(word)
            }
        }

        impl From<$register> for u32 {
            fn from(register: $register) -> u32 {
                register.0
            }
        }
    };
}

/// A register that stands at one address.
macro_rules! impl_register {
    ($register:ident, $address:ident) => {
        impl $crate::memory::Register for $register {
            fn get_address() -> $crate::memory::SFRAddress {
                $crate::memory::SFRAddress::$address
            }
        }
    };
}

/// A bit that software may only set: `_name` and `_set_name` become `name()` and `$set()`.
macro_rules! software_settable {
    ($name:ident, $set:ident) => {
        paste::paste! {
            pub fn $name(&self) -> bool {
                self.[<_ $name>]()
            }

            pub fn $set(&mut self) {
                self.[<_set_ $name>](true)
            }
        }
    };
}

/// A bit that software may only clear: `_name` and `_set_name` become `name()` and `$clear()`.
macro_rules! software_clearable {
    ($name:ident, $clear:ident) => {
        paste::paste! {
            pub fn $name(&self) -> bool {
                self.[<_ $name>]()
            }

            pub fn $clear(&mut self) {
                self.[<_set_ $name>](false)
            }
        }
    };
}

pub(crate) use {impl_register, impl_to_from_u32, software_clearable, software_settable};

//! Stand-ins for the encoding of the original's crate. Nothing here encodes: they are there for the original to compile.
use crate::error::EncodeError;

pub trait Encoder {}

pub trait Encode {
    fn encode<EN: Encoder>(&self, encoder: &mut EN) -> Result<(), EncodeError>;
}

macro_rules! never_encoded {
    ($($of:ty $(, const $n:ident)?;)*) => {$(
        impl<$(const $n: usize)?> Encode for $of {
            fn encode<EN: Encoder>(&self, _encoder: &mut EN) -> Result<(), EncodeError> {
                Err(EncodeError)
            }
        }
    )*};
}

never_encoded! {
    i32;
    u32;
    [u8; N], const N;
}

//! Stand-ins for the decoding of the original's crate. Nothing here decodes: they are there for the original to compile.
use crate::error::DecodeError;

pub trait Decoder {
    type Context;
}

pub trait BorrowDecoder<'de>: Decoder {}

pub trait Decode<Context>: Sized {
    fn decode<D: Decoder<Context = Context>>(decoder: &mut D) -> Result<Self, DecodeError>;
}

pub trait BorrowDecode<'de, Context>: Sized {
    fn borrow_decode<D: BorrowDecoder<'de, Context = Context>>(decoder: &mut D) -> Result<Self, DecodeError>;
}

macro_rules! never_decoded {
    ($($of:ty $(, const $n:ident)?;)*) => {$(
        impl<Context $(, const $n: usize)?> Decode<Context> for $of {
            fn decode<D: Decoder<Context = Context>>(_decoder: &mut D) -> Result<Self, DecodeError> {
                Err(DecodeError)
            }
        }

        impl<'de, Context $(, const $n: usize)?> BorrowDecode<'de, Context> for $of {
            fn borrow_decode<D: BorrowDecoder<'de, Context = Context>>(_decoder: &mut D) -> Result<Self, DecodeError> {
                Err(DecodeError)
            }
        }
    )*};
}

never_decoded! {
    i32;
    u32;
    [u8; N], const N;
}

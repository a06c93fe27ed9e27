//! A stand-in for the crate `serde`: just what the original's location.rs and files.rs name, so that
//! they compile unchanged. Nothing is ever written through it.

pub use serde_derive::Serialize;

pub trait Serialize {
    fn serialize<S: Serializer>(&self, serializer: S) -> Result<S::Ok, S::Error>;
}

pub trait Serializer: Sized {
    type Ok;
    type Error;
    type SerializeStruct: ser::SerializeStruct<Ok = Self::Ok, Error = Self::Error>;

    fn serialize_u64(self, value: u64) -> Result<Self::Ok, Self::Error>;
    fn serialize_struct(
        self,
        name: &'static str,
        fields: usize,
    ) -> Result<Self::SerializeStruct, Self::Error>;
}

pub mod ser {
    use super::Serialize;

    pub trait SerializeStruct {
        type Ok;
        type Error;

        fn serialize_field<T: ?Sized + Serialize>(
            &mut self,
            name: &'static str,
            value: &T,
        ) -> Result<(), Self::Error>;
        fn end(self) -> Result<Self::Ok, Self::Error>;
    }
}

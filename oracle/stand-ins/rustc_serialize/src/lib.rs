//! The traits by which definitions are read from JSON. Nothing implements `Decoder` here, so no
//! definition is ever decoded.

pub trait Decodable: Sized {
    fn decode<D: Decoder>(decoder: &mut D) -> Result<Self, D::Error>;
}

pub trait Decoder: Sized {
    type Error;

    fn read_str(&mut self) -> Result<String, Self::Error>;

    fn read_struct<T, F>(&mut self, name: &str, len: usize, f: F) -> Result<T, Self::Error>
    where
        F: FnOnce(&mut Self) -> Result<T, Self::Error>;

    fn read_struct_field<T, F>(&mut self, name: &str, i: usize, f: F) -> Result<T, Self::Error>
    where
        F: FnOnce(&mut Self) -> Result<T, Self::Error>;

    fn read_seq<T, F>(&mut self, f: F) -> Result<T, Self::Error>
    where
        F: FnOnce(&mut Self, usize) -> Result<T, Self::Error>;

    fn read_seq_elt<T, F>(&mut self, i: usize, f: F) -> Result<T, Self::Error>
    where
        F: FnOnce(&mut Self) -> Result<T, Self::Error>;
}

//! What is known of a grid before its numbers are read: their kind and the dimensions.

#[derive(Clone, Copy, Debug, PartialEq)]
pub enum Numbers {
    Float32,
    Int16,
    Int8,
}

impl Numbers {
    pub fn named(name: &str) -> Option<Self> {
        match name {
            "float32" => Some(Numbers::Float32),
            "int16" => Some(Numbers::Int16),
            "int8" => Some(Numbers::Int8),
            _ => None,
        }
    }

    pub fn name(self) -> &'static str {
        match self {
            Numbers::Float32 => "float32",
            Numbers::Int16 => "int16",
            Numbers::Int8 => "int8",
        }
    }

    pub fn bytes(self) -> usize {
        match self {
            Numbers::Float32 => 4,
            Numbers::Int16 => 2,
            Numbers::Int8 => 1,
        }
    }
}

/// The dimensions x, y, z, and the kind of number.
#[derive(Clone, Copy, Debug, PartialEq)]
pub struct Header {
    pub dims: [u32; 3],
    pub numbers: Numbers,
}

impl Header {
    /// The highest point. Dimensions of 0 have none, and the library refuses them whatever the box.
    pub fn highest(&self) -> [u32; 3] {
        self.dims.map(|size| size.saturating_sub(1))
    }

    /// The product of the dimensions.
    pub fn points(&self) -> u128 {
        self.dims.map(u128::from).iter().product()
    }

    /// The points of a layer.
    pub fn plane(&self) -> u128 {
        u128::from(self.dims[0]) * u128::from(self.dims[1])
    }
}

//! What a case lends to the model, beside its channel list.

/// The image and the memory. The model changes both.
#[derive(Clone, Debug, Default, PartialEq, Eq)]
pub struct Lent {
    /// The registers.
    pub image: Vec<u8>,
    /// What DMA moves bytes into and out of; empty where there is none.
    pub memory: Vec<u8>,
}

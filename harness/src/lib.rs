//! A plain second codec, written from the format's description, and the codec's C interface, to be compared.

pub mod block;
pub mod camera;
pub mod frame;
pub mod groups;
pub mod material;
pub mod random;
pub mod range_coder;
pub mod receiver;
pub mod rejection;

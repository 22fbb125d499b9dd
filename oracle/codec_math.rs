//! Our root of the crate `j2k_codec_math`, over the published `jpeg.rs`.

pub mod jpeg;

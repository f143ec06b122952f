pub mod adpcm {
    original!("decode/adpcm.rs");
}
pub mod pcm {
    original!("decode/pcm.rs");
}

pub use adpcm::{AdpcmDecoder, AdpcmStream};
pub use pcm::Pcm8Stream;

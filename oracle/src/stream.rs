pub mod sigma_delta_bits {
    original!("stream/sigma_delta_bits.rs");
}

pub use sigma_delta_bits::SigmaDeltaBitStream;

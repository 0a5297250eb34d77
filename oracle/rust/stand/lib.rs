//! The oracle: the listed Rust, unchanged, behind the functions of door.rs. See oracle/README.md.
#![allow(
    dead_code,
    unused_imports,
    unused_variables,
    unreachable_patterns,
    unexpected_cfgs,
    unused_features,
    mismatched_lifetime_syntaxes
)]
// Each foreign crate is this crate's root, so that the listed `use` lines hold as they are.
extern crate self as bytemuck;
extern crate self as inventory;
extern crate self as itertools;
extern crate self as zarrs_codec;
extern crate self as zarrs_data_type;
extern crate self as zarrs_metadata;
extern crate self as zarrs_metadata_ext;
extern crate self as zarrs_plugin;
extern crate self as zarrs_storage;

/// The traits that a stand-in codec must have and that nobody calls.
#[macro_export]
macro_rules! stub_codec {
    ($t:ty) => {
        $crate::stub_codec!($t, {
            fn encode<'a>(
                &self,
                _: $crate::ArrayBytes<'a>,
                _: &[std::num::NonZeroU64],
                _: &$crate::DataType,
                _: &$crate::FillValue,
                _: &$crate::CodecOptions,
            ) -> Result<$crate::ArrayBytesRaw<'a>, $crate::CodecError> {
                unreachable!()
            }
            fn decode<'a>(
                &self,
                _: $crate::ArrayBytesRaw<'a>,
                _: &[std::num::NonZeroU64],
                _: &$crate::DataType,
                _: &$crate::FillValue,
                _: &$crate::CodecOptions,
            ) -> Result<$crate::ArrayBytes<'a>, $crate::CodecError> {
                unreachable!()
            }
            fn encoded_representation(
                &self,
                _: &[std::num::NonZeroU64],
                _: &$crate::DataType,
                _: &$crate::FillValue,
            ) -> Result<$crate::BytesRepresentation, $crate::CodecError> {
                unreachable!()
            }
        });
    };
    ($t:ty, { $($body:tt)* }) => {
        impl $crate::CodecTraits for $t {
            fn as_any(&self) -> &dyn std::any::Any {
                self
            }
            fn configuration(
                &self,
                _: $crate::ZarrVersion,
                _: &$crate::CodecMetadataOptions,
            ) -> Option<$crate::Configuration> {
                None
            }
            fn partial_decoder_capability(&self) -> $crate::PartialDecoderCapability {
                $crate::PartialDecoderCapability { partial_read: true, partial_decode: true }
            }
            fn partial_encoder_capability(&self) -> $crate::PartialEncoderCapability {
                $crate::PartialEncoderCapability { partial_encode: true }
            }
        }
        impl $crate::ArrayCodecTraits for $t {
            fn recommended_concurrency(
                &self,
                _: &[std::num::NonZeroU64],
                _: &$crate::DataType,
            ) -> Result<$crate::RecommendedConcurrency, $crate::CodecError> {
                Ok($crate::RecommendedConcurrency::new_maximum(1))
            }
        }
        impl ArrayToBytesCodecTraits for $t {
            fn into_dyn(self: Arc<Self>) -> Arc<dyn ArrayToBytesCodecTraits> {
                self
            }
            $($body)*
        }
    };
}

mod array;
pub mod door;
mod standins;
pub use standins::*;

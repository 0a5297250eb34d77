//! Hand-written stand-ins for what the listed files lean on and is not at hand:
//! zarrs_codec, zarrs_data_type, zarrs_metadata(_ext), zarrs_plugin, zarrs_storage,
//! zarrs_chunk_grid, itertools, bytemuck, inventory. Only what the listed text names is here.
//! Meaning is taken from document 01 (item 2: subsets; item 7: validate, new, new_vlen, the chain).
#![allow(dead_code, unused_variables, clippy::all)]

use std::any::Any;
use std::borrow::Cow;
use std::num::NonZeroU64;
use std::sync::Arc;

// ---------------------------------------------------------------- errors
#[derive(Debug, Clone)]
pub enum CodecError {
    Other(String),
    UnsupportedDataType(DataType, String),
    InvalidBytesLength(InvalidBytesLengthError),
    Rule(&'static str),
}
#[derive(Debug, Clone)]
pub struct InvalidBytesLengthError(usize, usize);
impl InvalidBytesLengthError {
    pub fn new(len: usize, expected: usize) -> Self {
        Self(len, expected)
    }
}
#[derive(Debug, Clone)]
pub struct RuleError(pub &'static str);
#[derive(Debug, Clone)]
pub struct IndexerError(pub &'static str);
#[derive(Debug, Clone)]
pub struct StorageError;
#[derive(Debug, Clone)]
pub enum PluginCreateError {
    Other(String),
}
impl From<InvalidBytesLengthError> for CodecError {
    fn from(e: InvalidBytesLengthError) -> Self {
        Self::InvalidBytesLength(e)
    }
}
impl From<RuleError> for CodecError {
    fn from(e: RuleError) -> Self {
        Self::Rule(e.0)
    }
}
impl From<IndexerError> for CodecError {
    fn from(e: IndexerError) -> Self {
        Self::Rule(e.0)
    }
}
impl From<String> for PluginCreateError {
    fn from(e: String) -> Self {
        Self::Other(e)
    }
}
impl From<&str> for PluginCreateError {
    fn from(e: &str) -> Self {
        Self::Other(e.to_string())
    }
}

// ---------------------------------------------------------------- types: the kind
#[derive(Debug, Clone, Copy, PartialEq, Eq)]
pub enum DataTypeSize {
    Fixed(usize),
    Variable,
}
#[derive(Debug, Clone)]
pub enum DataType {
    Plain(DataTypeSize),
    Optional(OptionalDataType),
}
#[derive(Debug, Clone)]
pub struct OptionalDataType(Box<DataType>);
impl OptionalDataType {
    pub fn data_type(&self) -> &DataType {
        &self.0
    }
}
impl DataType {
    pub fn optional(self) -> Self {
        Self::Optional(OptionalDataType(Box::new(self)))
    }
    pub fn is_optional(&self) -> bool {
        matches!(self, Self::Optional(_))
    }
    pub fn as_optional(&self) -> Option<&OptionalDataType> {
        match self {
            Self::Optional(o) => Some(o),
            Self::Plain(_) => None,
        }
    }
    pub fn optional_inner(&self) -> Option<&DataType> {
        self.as_optional().map(OptionalDataType::data_type)
    }
    pub fn size(&self) -> DataTypeSize {
        match self {
            Self::Plain(s) => *s,
            Self::Optional(o) => o.0.size(),
        }
    }
    pub fn fixed_size(&self) -> Option<usize> {
        match self.size() {
            DataTypeSize::Fixed(s) => Some(s),
            DataTypeSize::Variable => None,
        }
    }
}
#[derive(Debug, Clone)]
pub struct FillValue(Vec<u8>);
impl FillValue {
    pub fn new(v: Vec<u8>) -> Self {
        Self(v)
    }
    pub fn new_optional_null() -> Self {
        Self(vec![0])
    }
}
impl From<u8> for FillValue {
    fn from(v: u8) -> Self {
        Self(vec![v])
    }
}
impl From<u32> for FillValue {
    fn from(v: u32) -> Self {
        Self(v.to_ne_bytes().to_vec())
    }
}
impl From<u64> for FillValue {
    fn from(v: u64) -> Self {
        Self(v.to_ne_bytes().to_vec())
    }
}
impl From<Vec<u8>> for FillValue {
    fn from(v: Vec<u8>) -> Self {
        Self(v)
    }
}
#[derive(Debug, Clone, Copy, PartialEq, Eq)]
pub enum Endianness {
    Little,
    Big,
}
impl Endianness {
    pub const fn native() -> Self {
        if cfg!(target_endian = "big") { Self::Big } else { Self::Little }
    }
    pub fn is_native(self) -> bool {
        self == Self::native()
    }
}

// ---------------------------------------------------------------- array bytes
pub type ArrayBytesRaw<'a> = Cow<'a, [u8]>;

#[derive(Debug, Clone)]
pub struct ArrayBytesOffsets<'a>(Cow<'a, [usize]>);
impl<'a> ArrayBytesOffsets<'a> {
    /// Offsets never fall (and there is at least one).
    pub fn new(offsets: impl Into<Cow<'a, [usize]>>) -> Result<Self, RuleError> {
        let offsets = offsets.into();
        if offsets.is_empty() || offsets.windows(2).any(|w| w[1] < w[0]) {
            return Err(RuleError("ArrayBytesOffsets::new: offsets fall"));
        }
        Ok(Self(offsets))
    }
    pub unsafe fn new_unchecked(offsets: impl Into<Cow<'a, [usize]>>) -> Self {
        Self(offsets.into())
    }
    pub fn last(&self) -> usize {
        *self.0.last().unwrap()
    }
    pub fn into_owned(self) -> ArrayBytesOffsets<'static> {
        ArrayBytesOffsets(Cow::Owned(self.0.into_owned()))
    }
}
impl std::ops::Deref for ArrayBytesOffsets<'_> {
    type Target = [usize];
    fn deref(&self) -> &[usize] {
        &self.0
    }
}

#[derive(Debug, Clone)]
pub struct ArrayBytesVariableLength<'a> {
    bytes: ArrayBytesRaw<'a>,
    offsets: ArrayBytesOffsets<'a>,
}
impl<'a> ArrayBytesVariableLength<'a> {
    /// The last offset equals the count of value bytes.
    pub fn new(
        bytes: impl Into<ArrayBytesRaw<'a>>,
        offsets: ArrayBytesOffsets<'a>,
    ) -> Result<Self, RuleError> {
        let bytes = bytes.into();
        if offsets.last() != bytes.len() {
            return Err(RuleError("new_vlen: last offset is not the byte count"));
        }
        Ok(Self { bytes, offsets })
    }
    pub unsafe fn new_unchecked(
        bytes: impl Into<ArrayBytesRaw<'a>>,
        offsets: ArrayBytesOffsets<'a>,
    ) -> Self {
        Self { bytes: bytes.into(), offsets }
    }
    pub fn bytes(&self) -> &ArrayBytesRaw<'a> {
        &self.bytes
    }
    pub fn offsets(&self) -> &ArrayBytesOffsets<'a> {
        &self.offsets
    }
    pub fn into_parts(self) -> (ArrayBytesRaw<'a>, ArrayBytesOffsets<'a>) {
        (self.bytes, self.offsets)
    }
}

#[derive(Debug, Clone)]
pub struct ArrayBytesOptional<'a> {
    data: Box<ArrayBytes<'a>>,
    mask: ArrayBytesRaw<'a>,
}
impl<'a> ArrayBytesOptional<'a> {
    pub fn data(&self) -> &ArrayBytes<'a> {
        &self.data
    }
    pub fn mask(&self) -> &ArrayBytesRaw<'a> {
        &self.mask
    }
    pub fn into_parts(self) -> (Box<ArrayBytes<'a>>, ArrayBytesRaw<'a>) {
        (self.data, self.mask)
    }
}

#[derive(Debug, Clone)]
pub enum ArrayBytes<'a> {
    Fixed(ArrayBytesRaw<'a>),
    Variable(ArrayBytesVariableLength<'a>),
    Optional(ArrayBytesOptional<'a>),
}
impl<'a> ArrayBytes<'a> {
    pub fn new_flen(bytes: impl Into<ArrayBytesRaw<'a>>) -> Self {
        Self::Fixed(bytes.into())
    }
    pub fn new_vlen(
        bytes: impl Into<ArrayBytesRaw<'a>>,
        offsets: ArrayBytesOffsets<'a>,
    ) -> Result<Self, RuleError> {
        Ok(Self::Variable(ArrayBytesVariableLength::new(bytes, offsets)?))
    }
    pub unsafe fn new_vlen_unchecked(
        bytes: impl Into<ArrayBytesRaw<'a>>,
        offsets: ArrayBytesOffsets<'a>,
    ) -> Self {
        Self::Variable(unsafe { ArrayBytesVariableLength::new_unchecked(bytes, offsets) })
    }
    pub fn new_fill_value(
        data_type: &DataType,
        num_elements: u64,
        fill_value: &FillValue,
    ) -> Result<Self, RuleError> {
        Err(RuleError("new_fill_value: a missing chunk is not in scope"))
    }
    pub fn with_optional_mask(self, mask: impl Into<ArrayBytesRaw<'a>>) -> Self {
        Self::Optional(ArrayBytesOptional { data: Box::new(self), mask: mask.into() })
    }
    pub fn into_fixed(self) -> Result<ArrayBytesRaw<'a>, RuleError> {
        match self {
            Self::Fixed(b) => Ok(b),
            _ => Err(RuleError("expected fixed")),
        }
    }
    pub fn into_variable(self) -> Result<ArrayBytesVariableLength<'a>, RuleError> {
        match self {
            Self::Variable(b) => Ok(b),
            _ => Err(RuleError("expected variable")),
        }
    }
    pub fn into_optional(self) -> Result<ArrayBytesOptional<'a>, RuleError> {
        match self {
            Self::Optional(b) => Ok(b),
            _ => Err(RuleError("expected optional")),
        }
    }
    pub fn into_owned(self) -> ArrayBytes<'static> {
        match self {
            Self::Fixed(b) => ArrayBytes::Fixed(Cow::Owned(b.into_owned())),
            Self::Variable(v) => ArrayBytes::Variable(ArrayBytesVariableLength {
                bytes: Cow::Owned(v.bytes.into_owned()),
                offsets: v.offsets.into_owned(),
            }),
            Self::Optional(o) => ArrayBytes::Optional(ArrayBytesOptional {
                data: Box::new(o.data.into_owned()),
                mask: Cow::Owned(o.mask.into_owned()),
            }),
        }
    }
    /// The array rules of document 01.
    pub fn validate(&self, num_elements: u64, data_type: &DataType) -> Result<(), CodecError> {
        match (self, data_type) {
            (Self::Fixed(b), DataType::Plain(DataTypeSize::Fixed(s))) => {
                if b.len() as u64 == num_elements * *s as u64 {
                    Ok(())
                } else {
                    Err(CodecError::Rule("validate: fixed length"))
                }
            }
            (Self::Variable(v), DataType::Plain(DataTypeSize::Variable)) => {
                if v.offsets.len() as u64 != num_elements + 1 {
                    return Err(CodecError::Rule("validate: offset count"));
                }
                if v.offsets.windows(2).any(|w| w[1] < w[0]) {
                    return Err(CodecError::Rule("validate: offsets fall"));
                }
                if v.offsets.last() != v.bytes.len() {
                    return Err(CodecError::Rule("validate: last offset"));
                }
                Ok(())
            }
            (Self::Optional(o), DataType::Optional(t)) => {
                if o.mask.len() as u64 != num_elements {
                    return Err(CodecError::Rule("validate: mask length"));
                }
                o.data.validate(num_elements, t.data_type())
            }
            _ => Err(CodecError::Rule("validate: bytes and type disagree")),
        }
    }
}
impl<'a> From<ArrayBytesRaw<'a>> for ArrayBytes<'a> {
    fn from(b: ArrayBytesRaw<'a>) -> Self {
        Self::Fixed(b)
    }
}
impl<'a> From<&'a [u8]> for ArrayBytes<'a> {
    fn from(b: &'a [u8]) -> Self {
        Self::Fixed(Cow::Borrowed(b))
    }
}
impl From<Vec<u8>> for ArrayBytes<'_> {
    fn from(b: Vec<u8>) -> Self {
        Self::Fixed(Cow::Owned(b))
    }
}
pub struct ArrayBytesFixedDisjointView<'a>(std::marker::PhantomData<&'a mut [u8]>);
pub enum ArrayBytesDecodeIntoTarget<'a> {
    Fixed(&'a mut ArrayBytesFixedDisjointView<'a>),
    Optional(Box<ArrayBytesDecodeIntoTarget<'a>>, &'a mut ArrayBytesFixedDisjointView<'a>),
}
pub fn decode_into_array_bytes_target(
    bytes: &ArrayBytes<'_>,
    target: ArrayBytesDecodeIntoTarget<'_>,
) -> Result<(), CodecError> {
    Err(CodecError::Rule("decode_into is not in scope"))
}

// ---------------------------------------------------------------- subsets (document 01, item 2: boxes)
pub type ChunkShape = Vec<NonZeroU64>;
pub trait ChunkShapeTraits {
    fn num_elements_u64(&self) -> u64;
}
impl ChunkShapeTraits for [NonZeroU64] {
    fn num_elements_u64(&self) -> u64 {
        self.iter().map(|v| v.get()).product()
    }
}
#[derive(Debug, Clone)]
pub struct ArraySubset {
    pub start: Vec<u64>,
    pub shape: Vec<u64>,
}
const SIDES: usize = 8;
/// The cells of a subset in row order, one after the other and with no list of them: along the last side the number goes up by one.
#[derive(Clone)]
pub struct LinearisedIndices {
    sides: usize,
    array: [u64; SIDES],
    start: [u64; SIDES],
    shape: [u64; SIDES],
    at: [u64; SIDES],
    next: u64,
    left_in_row: u64,
    left: u64,
}
impl LinearisedIndices {
    pub fn iter(&self) -> Self {
        self.clone()
    }
    fn row_begin(&self) -> u64 {
        (0..self.sides).fold(0, |n, i| n * self.array[i] + self.start[i] + self.at[i])
    }
    #[inline(never)]
    fn next_row(&mut self) {
        for i in (0..self.sides - 1).rev() {
            self.at[i] += 1;
            if self.at[i] < self.shape[i] {
                break;
            }
            self.at[i] = 0;
        }
        self.next = self.row_begin();
        self.left_in_row = self.shape[self.sides - 1];
    }
}
impl Iterator for LinearisedIndices {
    type Item = u64;
    #[inline]
    fn next(&mut self) -> Option<u64> {
        if self.left == 0 {
            return None;
        }
        if self.left_in_row == 0 {
            self.next_row();
        }
        let n = self.next;
        self.next += 1;
        self.left_in_row -= 1;
        self.left -= 1;
        Some(n)
    }
    fn size_hint(&self) -> (usize, Option<usize>) {
        (self.left as usize, Some(self.left as usize))
    }
}
impl ArraySubset {
    pub fn num_elements(&self) -> u64 {
        self.shape.iter().product()
    }
    pub fn linearised_indices(&self, array_shape: &[u64]) -> Result<LinearisedIndices, IndexerError> {
        let d = array_shape.len();
        if d > SIDES || self.start.len() != d || self.shape.len() != d {
            return Err(IndexerError("subset: not one start and one length a side"));
        }
        for i in 0..d {
            if self.start[i].checked_add(self.shape[i]).is_none_or(|e| e > array_shape[i]) {
                return Err(IndexerError("subset: past its shape"));
            }
        }
        let eight = |list: &[u64]| {
            let mut a = [0; SIDES];
            a[..d].copy_from_slice(list);
            a
        };
        let mut indices = LinearisedIndices {
            sides: d,
            array: eight(array_shape),
            start: eight(&self.start),
            shape: eight(&self.shape),
            at: [0; SIDES],
            next: 0,
            left_in_row: self.shape.last().copied().unwrap_or(1),
            left: self.num_elements(),
        };
        indices.next = indices.row_begin();
        Ok(indices)
    }
}
pub trait Indexer {
    fn len(&self) -> u64;
    fn iter_linearised_indices(&self, shape: &[u64]) -> Result<LinearisedIndices, IndexerError>;
}
impl Indexer for ArraySubset {
    fn len(&self) -> u64 {
        self.num_elements()
    }
    fn iter_linearised_indices(&self, shape: &[u64]) -> Result<LinearisedIndices, IndexerError> {
        self.linearised_indices(shape)
    }
}

// ---------------------------------------------------------------- codec traits
#[derive(Debug, Clone, Default)]
pub struct CodecOptions;
#[derive(Debug, Clone, Default)]
pub struct CodecMetadataOptions;
#[derive(Debug, Clone, Default)]
pub struct CodecSpecificOptions;
#[derive(Debug, Clone, Copy)]
pub struct PartialDecoderCapability {
    pub partial_read: bool,
    pub partial_decode: bool,
}
#[derive(Debug, Clone, Copy)]
pub struct PartialEncoderCapability {
    pub partial_encode: bool,
}
#[derive(Debug, Clone)]
pub struct RecommendedConcurrency(std::ops::Range<usize>);
impl RecommendedConcurrency {
    pub fn new(r: std::ops::Range<usize>) -> Self {
        Self(r)
    }
    pub fn new_maximum(n: usize) -> Self {
        Self(1..n)
    }
    pub fn min(&self) -> usize {
        self.0.start
    }
    pub fn max(&self) -> usize {
        self.0.end
    }
}
#[derive(Debug, Clone, Copy)]
pub enum BytesRepresentation {
    FixedSize(u64),
    BoundedSize(u64),
    UnboundedSize,
}
impl BytesRepresentation {
    pub fn size(&self) -> Option<u64> {
        match self {
            Self::FixedSize(s) | Self::BoundedSize(s) => Some(*s),
            Self::UnboundedSize => None,
        }
    }
}
pub trait CodecTraits: ExtensionName + std::fmt::Debug + Send + Sync {
    fn as_any(&self) -> &dyn Any;
    fn configuration(
        &self,
        version: ZarrVersion,
        options: &CodecMetadataOptions,
    ) -> Option<Configuration>;
    fn configuration_v3(&self, options: &CodecMetadataOptions) -> Option<Configuration> {
        self.configuration(ZarrVersion::V3, options)
    }
    fn partial_decoder_capability(&self) -> PartialDecoderCapability;
    fn partial_encoder_capability(&self) -> PartialEncoderCapability;
}
pub trait ArrayCodecTraits: CodecTraits {
    fn recommended_concurrency(
        &self,
        shape: &[NonZeroU64],
        data_type: &DataType,
    ) -> Result<RecommendedConcurrency, CodecError>;
    fn partial_decode_granularity(&self, shape: &[NonZeroU64]) -> ChunkShape {
        shape.to_vec()
    }
}
pub trait ArrayToBytesCodecTraits: ArrayCodecTraits {
    fn into_dyn(self: Arc<Self>) -> Arc<dyn ArrayToBytesCodecTraits>;
    fn with_codec_specific_options(
        self: Arc<Self>,
        opts: &CodecSpecificOptions,
    ) -> Arc<dyn ArrayToBytesCodecTraits> {
        self.into_dyn()
    }
    fn encode<'a>(
        &self,
        bytes: ArrayBytes<'a>,
        shape: &[NonZeroU64],
        data_type: &DataType,
        fill_value: &FillValue,
        options: &CodecOptions,
    ) -> Result<ArrayBytesRaw<'a>, CodecError>;
    fn decode<'a>(
        &self,
        bytes: ArrayBytesRaw<'a>,
        shape: &[NonZeroU64],
        data_type: &DataType,
        fill_value: &FillValue,
        options: &CodecOptions,
    ) -> Result<ArrayBytes<'a>, CodecError>;
    fn encoded_representation(
        &self,
        shape: &[NonZeroU64],
        data_type: &DataType,
        fill_value: &FillValue,
    ) -> Result<BytesRepresentation, CodecError>;
    fn decode_into(
        &self,
        bytes: ArrayBytesRaw<'_>,
        shape: &[NonZeroU64],
        data_type: &DataType,
        fill_value: &FillValue,
        output_target: ArrayBytesDecodeIntoTarget<'_>,
        options: &CodecOptions,
    ) -> Result<(), CodecError> {
        Err(CodecError::Rule("decode_into is not in scope"))
    }
    fn compact<'a>(
        &self,
        bytes: ArrayBytesRaw<'a>,
        shape: &[NonZeroU64],
        data_type: &DataType,
        fill_value: &FillValue,
        options: &CodecOptions,
    ) -> Result<Option<ArrayBytesRaw<'a>>, CodecError> {
        Ok(None)
    }
    fn partial_decoder(
        self: Arc<Self>,
        input_handle: Arc<dyn BytesPartialDecoderTraits>,
        shape: &[NonZeroU64],
        data_type: &DataType,
        fill_value: &FillValue,
        options: &CodecOptions,
    ) -> Result<Arc<dyn ArrayPartialDecoderTraits>, CodecError> {
        Err(CodecError::Rule("partial_decoder is not in scope"))
    }
    fn partial_encoder(
        self: Arc<Self>,
        input_output_handle: Arc<dyn BytesPartialEncoderTraits>,
        shape: &[NonZeroU64],
        data_type: &DataType,
        fill_value: &FillValue,
        options: &CodecOptions,
    ) -> Result<Arc<dyn ArrayPartialEncoderTraits>, CodecError> {
        Err(CodecError::Rule("partial_encoder is not in scope"))
    }
}
/// Never instantiated: document 01 has no array to array codec.
pub trait ArrayToArrayCodecTraits: ArrayCodecTraits {
    fn with_codec_specific_options(
        self: Arc<Self>,
        opts: &CodecSpecificOptions,
    ) -> Arc<dyn ArrayToArrayCodecTraits>;
    fn encode<'a>(
        &self,
        bytes: ArrayBytes<'a>,
        shape: &[NonZeroU64],
        data_type: &DataType,
        fill_value: &FillValue,
        options: &CodecOptions,
    ) -> Result<ArrayBytes<'a>, CodecError>;
    fn decode<'a>(
        &self,
        bytes: ArrayBytes<'a>,
        shape: &[NonZeroU64],
        data_type: &DataType,
        fill_value: &FillValue,
        options: &CodecOptions,
    ) -> Result<ArrayBytes<'a>, CodecError>;
    fn encoded_shape(&self, shape: &[NonZeroU64]) -> Result<ChunkShape, CodecError>;
    fn encoded_fill_value(&self, t: &DataType, f: &FillValue) -> Result<FillValue, CodecError>;
    fn encoded_data_type(&self, t: &DataType) -> Result<DataType, CodecError>;
    fn encoded_representation(
        &self,
        shape: &[NonZeroU64],
        t: &DataType,
        f: &FillValue,
    ) -> Result<(ChunkShape, DataType, FillValue), CodecError>;
    fn partial_decoder(
        self: Arc<Self>,
        input_handle: Arc<dyn ArrayPartialDecoderTraits>,
        shape: &[NonZeroU64],
        data_type: &DataType,
        fill_value: &FillValue,
        options: &CodecOptions,
    ) -> Result<Arc<dyn ArrayPartialDecoderTraits>, CodecError>;
    fn partial_encoder(
        self: Arc<Self>,
        input_output_handle: Arc<dyn ArrayPartialEncoderTraits>,
        shape: &[NonZeroU64],
        data_type: &DataType,
        fill_value: &FillValue,
        options: &CodecOptions,
    ) -> Result<Arc<dyn ArrayPartialEncoderTraits>, CodecError>;
}
/// Never instantiated: document 01 has no bytes to bytes codec.
pub trait BytesToBytesCodecTraits: CodecTraits {
    fn with_codec_specific_options(
        self: Arc<Self>,
        opts: &CodecSpecificOptions,
    ) -> Arc<dyn BytesToBytesCodecTraits>;
    fn encode<'a>(
        &self,
        bytes: ArrayBytesRaw<'a>,
        options: &CodecOptions,
    ) -> Result<ArrayBytesRaw<'a>, CodecError>;
    fn decode<'a>(
        &self,
        bytes: ArrayBytesRaw<'a>,
        representation: &BytesRepresentation,
        options: &CodecOptions,
    ) -> Result<ArrayBytesRaw<'a>, CodecError>;
    fn encoded_representation(&self, representation: &BytesRepresentation) -> BytesRepresentation;
    fn recommended_concurrency(
        &self,
        representation: &BytesRepresentation,
    ) -> Result<RecommendedConcurrency, CodecError>;
    fn partial_decoder(
        self: Arc<Self>,
        input_handle: Arc<dyn BytesPartialDecoderTraits>,
        representation: &BytesRepresentation,
        options: &CodecOptions,
    ) -> Result<Arc<dyn BytesPartialDecoderTraits>, CodecError>;
    fn partial_encoder(
        self: Arc<Self>,
        input_output_handle: Arc<dyn BytesPartialEncoderTraits>,
        representation: &BytesRepresentation,
        options: &CodecOptions,
    ) -> Result<Arc<dyn BytesPartialEncoderTraits>, CodecError>;
}
pub trait BytesPartialDecoderTraits: Send + Sync {
    fn exists(&self) -> Result<bool, StorageError>;
    fn size_held(&self) -> usize;
    fn decode(&self, options: &CodecOptions) -> Result<Option<ArrayBytesRaw<'_>>, CodecError>;
}
pub trait BytesPartialEncoderTraits: Send + Sync {}
pub trait ArrayPartialDecoderTraits: Send + Sync {
    fn data_type(&self) -> &DataType;
    fn exists(&self) -> Result<bool, StorageError>;
    fn size_held(&self) -> usize;
    fn partial_decode(
        &self,
        indexer: &dyn Indexer,
        options: &CodecOptions,
    ) -> Result<ArrayBytes<'_>, CodecError>;
    fn supports_partial_decode(&self) -> bool;
}
pub trait ArrayPartialEncoderTraits: Send + Sync {}
pub enum Codec {
    ArrayToArray(Arc<dyn ArrayToArrayCodecTraits>),
    ArrayToBytes(Arc<dyn ArrayToBytesCodecTraits>),
    BytesToBytes(Arc<dyn BytesToBytesCodecTraits>),
}
impl Codec {
    pub fn from_metadata(metadata: &v3::MetadataV3) -> Result<Self, PluginCreateError> {
        Err(PluginCreateError::from("metadata is not in scope"))
    }
}
pub trait CodecTraitsV3 {
    fn create(metadata: &v3::MetadataV3) -> Result<Codec, PluginCreateError>;
}
pub struct CodecPluginV3;
impl CodecPluginV3 {
    pub const fn new<T: CodecTraitsV3>() -> Self {
        Self
    }
}

// ---------------------------------------------------------------- metadata, plugins
#[derive(Debug, Clone, Default)]
pub struct Configuration;
impl Configuration {
    pub fn is_empty(&self) -> bool {
        true
    }
}
#[derive(Debug, Clone, Copy)]
pub enum ZarrVersion {
    V2,
    V3,
}
pub trait ExtensionName {
    fn name(&self, version: ZarrVersion) -> Option<Cow<'static, str>>;
    fn name_v3(&self) -> Option<Cow<'static, str>> {
        self.name(ZarrVersion::V3)
    }
}
pub struct Aliases {
    pub default_name: &'static str,
}
pub trait ExtensionAliasesV3 {
    fn aliases_v3() -> Aliases;
}
#[macro_export]
macro_rules! impl_extension_aliases {
    ($t:ty, v3: $n:literal, [$($a:literal),*] $(, v2: $m:literal, [$($b:literal),*])? $(,)?) => {
        impl $crate::ExtensionAliasesV3 for $t {
            fn aliases_v3() -> $crate::Aliases {
                $crate::Aliases { default_name: $n }
            }
        }
        impl $crate::ExtensionName for $t {
            fn name(&self, _v: $crate::ZarrVersion) -> Option<std::borrow::Cow<'static, str>> {
                Some(std::borrow::Cow::Borrowed($n))
            }
        }
    };
}
#[macro_export]
macro_rules! submit {
    ($e:expr) => {
        const _: fn() = || {
            let _ = $e;
        };
    };
}
pub fn warn_experimental_extension(name: &str, kind: &str) {}
pub fn warn_deprecated_extension(name: &str, kind: &str, instead: Option<&str>) {}
pub mod v3 {
    #[derive(Debug, Clone)]
    pub struct MetadataV3(String);
    impl MetadataV3 {
        pub fn new_with_configuration(
            name: impl Into<String>,
            _configuration: crate::Configuration,
        ) -> Self {
            Self(name.into())
        }
        pub fn name(&self) -> &str {
            &self.0
        }
        pub fn must_understand(&self) -> bool {
            true
        }
        pub fn configuration(&self) -> Option<&crate::Configuration> {
            None
        }
        pub fn to_typed_configuration<T>(&self) -> Result<T, crate::PluginCreateError> {
            Err(crate::PluginCreateError::from("metadata is not in scope"))
        }
    }
    impl std::fmt::Display for MetadataV3 {
        fn fmt(&self, f: &mut std::fmt::Formatter<'_>) -> std::fmt::Result {
            f.write_str(&self.0)
        }
    }
}
/// zarrs_metadata_ext::codec
pub mod codec {
    pub mod bytes {
        pub enum BytesCodecConfiguration {
            V1(BytesCodecConfigurationV1),
        }
        pub struct BytesCodecConfigurationV1 {
            pub endian: Option<crate::Endianness>,
        }
        impl From<BytesCodecConfiguration> for crate::Configuration {
            fn from(_: BytesCodecConfiguration) -> Self {
                Self
            }
        }
    }
    pub mod optional {
        use crate::v3::MetadataV3;
        pub enum OptionalCodecConfiguration {
            V1(OptionalCodecConfigurationV1),
        }
        pub struct OptionalCodecConfigurationV1 {
            pub mask_codecs: Vec<MetadataV3>,
            pub data_codecs: Vec<MetadataV3>,
        }
        impl From<OptionalCodecConfiguration> for crate::Configuration {
            fn from(_: OptionalCodecConfiguration) -> Self {
                Self
            }
        }
    }
    pub mod vlen {
        use crate::v3::MetadataV3;
        #[derive(Debug, Clone, Copy)]
        pub enum VlenIndexDataType {
            UInt32,
            UInt64,
        }
        #[derive(Debug, Clone, Copy)]
        pub enum VlenIndexLocation {
            Start,
            End,
        }
        pub enum VlenCodecConfiguration {
            V0(VlenCodecConfigurationV0),
            V0_1(VlenCodecConfigurationV0_1),
        }
        pub struct VlenCodecConfigurationV0 {
            pub index_codecs: Vec<MetadataV3>,
            pub data_codecs: Vec<MetadataV3>,
            pub index_data_type: VlenIndexDataType,
        }
        #[allow(non_camel_case_types)]
        pub struct VlenCodecConfigurationV0_1 {
            pub index_codecs: Vec<MetadataV3>,
            pub data_codecs: Vec<MetadataV3>,
            pub index_data_type: VlenIndexDataType,
            pub index_location: VlenIndexLocation,
        }
        impl From<VlenCodecConfiguration> for crate::Configuration {
            fn from(_: VlenCodecConfiguration) -> Self {
                Self
            }
        }
    }
    pub mod vlen_v2 {
        pub struct VlenV2CodecConfiguration;
        pub struct VlenV2CodecConfigurationV0;
    }
}
/// zarrs_data_type::codec_traits
pub mod codec_traits {
    pub mod bytes {
        use crate::{CodecError, DataType, DataTypeSize, Endianness};
        use std::borrow::Cow;
        #[derive(Debug, Clone)]
        pub struct BytesCodecEndiannessMissingError;
        impl From<BytesCodecEndiannessMissingError> for CodecError {
            fn from(_: BytesCodecEndiannessMissingError) -> Self {
                Self::Rule("endianness missing")
            }
        }
        pub struct BytesDataTypePlugin;
        /// The bytes of a fixed type: big order reverses cells, little order copies.
        pub trait BytesDataTypeTraits {
            fn turn<'a>(
                &self,
                bytes: Cow<'a, [u8]>,
                endian: Option<Endianness>,
            ) -> Result<Cow<'a, [u8]>, BytesCodecEndiannessMissingError>;
            fn encode<'a>(
                &self,
                bytes: Cow<'a, [u8]>,
                endian: Option<Endianness>,
            ) -> Result<Cow<'a, [u8]>, BytesCodecEndiannessMissingError> {
                self.turn(bytes, endian)
            }
            fn decode<'a>(
                &self,
                bytes: Cow<'a, [u8]>,
                endian: Option<Endianness>,
            ) -> Result<Cow<'a, [u8]>, BytesCodecEndiannessMissingError> {
                self.turn(bytes, endian)
            }
        }
        impl BytesDataTypeTraits for DataType {
            fn turn<'a>(
                &self,
                bytes: Cow<'a, [u8]>,
                endian: Option<Endianness>,
            ) -> Result<Cow<'a, [u8]>, BytesCodecEndiannessMissingError> {
                match (self.size(), endian) {
                    (DataTypeSize::Fixed(1), _) => Ok(bytes),
                    (_, Some(e)) if e.is_native() => Ok(bytes),
                    (_, Some(_)) => {
                        let mut v = bytes.into_owned();
                        crate::array::reverse_endianness(&mut v, self);
                        Ok(Cow::Owned(v))
                    }
                    (_, None) => Err(BytesCodecEndiannessMissingError),
                }
            }
        }
        pub trait BytesDataTypeExt {
            fn codec_bytes(&self) -> Result<&dyn BytesDataTypeTraits, CodecError>;
        }
        impl BytesDataTypeExt for DataType {
            fn codec_bytes(&self) -> Result<&dyn BytesDataTypeTraits, CodecError> {
                match self {
                    DataType::Plain(DataTypeSize::Fixed(_)) => Ok(self),
                    _ => Err(CodecError::UnsupportedDataType(self.clone(), "bytes".into())),
                }
            }
        }
        #[macro_export]
        macro_rules! impl_bytes_data_type_traits {
            ($($t:tt)*) => {};
        }
        pub use crate::impl_bytes_data_type_traits;
    }
}

// ---------------------------------------------------------------- itertools
pub trait Itertools: Iterator {
    fn tuple_windows(mut self) -> TupleWindows<Self>
    where
        Self: Sized,
        Self::Item: Clone,
    {
        let last = self.next();
        TupleWindows { it: self, last }
    }
    fn zip_eq<J: IntoIterator>(self, other: J) -> ZipEq<Self, J::IntoIter>
    where
        Self: Sized,
    {
        ZipEq { a: self, b: other.into_iter() }
    }
}
impl<T: Iterator> Itertools for T {}
pub struct TupleWindows<I: Iterator> {
    it: I,
    last: Option<I::Item>,
}
impl<I: Iterator> Iterator for TupleWindows<I>
where
    I::Item: Clone,
{
    type Item = (I::Item, I::Item);
    fn next(&mut self) -> Option<Self::Item> {
        let last = self.last.clone()?;
        let next = self.it.next()?;
        self.last = Some(next.clone());
        Some((last, next))
    }
}
pub struct ZipEq<A, B> {
    a: A,
    b: B,
}
impl<A: Iterator, B: Iterator> Iterator for ZipEq<A, B> {
    type Item = (A::Item, B::Item);
    fn next(&mut self) -> Option<Self::Item> {
        match (self.a.next(), self.b.next()) {
            (None, None) => None,
            (Some(a), Some(b)) => Some((a, b)),
            _ => panic!("itertools: .zip_eq() reached end of one iterator before the other"),
        }
    }
}
#[macro_export]
macro_rules! chain {
    ($first:expr $(, $rest:expr)* $(,)?) => {
        $first.into_iter()$(.chain($rest))*
    };
}

// ---------------------------------------------------------------- bytemuck
pub unsafe trait NoUninit: Copy + 'static {}
pub unsafe trait AnyBitPattern: Copy + 'static {}
pub unsafe trait Pod: NoUninit + AnyBitPattern {}
macro_rules! pod {
    ($($t:ty),*) => {$(
        unsafe impl NoUninit for $t {}
        unsafe impl AnyBitPattern for $t {}
        unsafe impl Pod for $t {}
    )*};
}
pod!(u8, u32, u64, usize);
unsafe impl NoUninit for NonZeroU64 {}
pub fn must_cast_slice<A: NoUninit, B: AnyBitPattern>(a: &[A]) -> &[B] {
    assert!(align_of::<A>() >= align_of::<B>());
    assert_eq!(size_of_val(a) % size_of::<B>(), 0);
    unsafe { std::slice::from_raw_parts(a.as_ptr().cast(), size_of_val(a) / size_of::<B>()) }
}
pub mod allocation {
    use super::{AnyBitPattern, NoUninit};
    pub fn pod_collect_to_vec<A: NoUninit, B: NoUninit + AnyBitPattern>(src: &[A]) -> Vec<B> {
        let bytes = size_of_val(src);
        let count = bytes.div_ceil(size_of::<B>());
        let mut dst: Vec<B> = Vec::with_capacity(count);
        unsafe {
            let p: *mut u8 = dst.as_mut_ptr().cast();
            std::ptr::write_bytes(p, 0, count * size_of::<B>());
            std::ptr::copy_nonoverlapping(src.as_ptr().cast(), p, bytes);
            dst.set_len(count);
        }
        dst
    }
    pub fn try_cast_vec<A: NoUninit, B: AnyBitPattern>(v: Vec<A>) -> Result<Vec<B>, ((), Vec<A>)> {
        if size_of::<A>() != size_of::<B>() || align_of::<A>() != align_of::<B>() {
            return Err(((), v));
        }
        let mut v = std::mem::ManuallyDrop::new(v);
        Ok(unsafe { Vec::from_raw_parts(v.as_mut_ptr().cast(), v.len(), v.capacity()) })
    }
    pub fn cast_vec<A: NoUninit, B: AnyBitPattern>(v: Vec<A>) -> Vec<B> {
        try_cast_vec(v).map_err(|_| ()).unwrap()
    }
}

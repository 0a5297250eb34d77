//! The archive under test, loaded as a shared object: the functions of durpaxeta.h.

use std::ffi::{CStr, CString, c_char, c_int, c_void};

unsafe extern "C" {
    fn dlopen(path: *const c_char, flags: c_int) -> *mut c_void;
    fn dlsym(handle: *mut c_void, name: *const c_char) -> *mut c_void;
    fn dlerror() -> *const c_char;
}

#[repr(C)]
#[derive(Clone, Copy)]
pub struct DpxKind(pub u64, pub u64, pub u64, pub u64, pub u64);
pub fn c_kind(k: &[u64; 5]) -> DpxKind {
    DpxKind(k[0], k[1], k[2], k[3], k[4])
}

type In8 = *const u8;
type In64 = *const u64;
type Out8 = *mut u8;
type Out64 = *mut u64;
pub type EncodeCall = unsafe extern "C" fn(DpxKind, In64, usize, In8, usize, In8, usize, In64, usize, Out8, usize, Out64) -> u32;
pub type DecodeCall =
    unsafe extern "C" fn(DpxKind, In64, usize, In8, usize, Out8, usize, Out8, usize, Out64, usize, Out64) -> u32;
type GenerateCall = unsafe extern "C" fn(DpxKind, In64, usize, u32, Out8, usize, Out8, usize, Out64, usize, Out64) -> u32;
type InterleavedCall = unsafe extern "C" fn(u64, In8, usize, Out8, usize, Out64, usize, Out64) -> u32;
#[rustfmt::skip]
type ExtractCall = unsafe extern "C" fn(DpxKind, In64, usize, In64, usize, In8, usize, In8, usize, In64, usize, Out8, usize, Out8, usize, Out64, usize, Out64) -> u32;
#[rustfmt::skip]
type PartialCall = unsafe extern "C" fn(u64, u64, In64, usize, In64, usize, In8, usize, Out8, usize, Out64, usize, Out64) -> u32;
type ReverseCall = unsafe extern "C" fn(u64, Out8, usize, Out64) -> u32;
type CellsCall = unsafe extern "C" fn(In64, usize, In64, usize, Out64, usize, Out64) -> u32;
#[rustfmt::skip]
pub type MakeCall = unsafe extern "C" fn(DpxKind, u64, In8, usize, In8, usize, In64, usize, Out8, usize, Out64, usize, Out64, usize, Out8, usize, Out64) -> u32;
#[rustfmt::skip]
pub type ReadCall = unsafe extern "C" fn(DpxKind, u64, In8, usize, In64, usize, In64, usize, In8, usize, Out8, usize, Out8, usize, Out64, usize, Out64) -> u32;
#[rustfmt::skip]
pub type SetCall = unsafe extern "C" fn(DpxKind, u64, Out8, usize, Out64, usize, Out64, usize, Out8, usize, u64, In8, usize, In8, usize) -> u32;
#[rustfmt::skip]
pub type PackCall = unsafe extern "C" fn(DpxKind, u64, In8, usize, Out64, usize, In64, usize, Out8, usize, u64, Out64) -> u32;
#[rustfmt::skip]
pub type PreviewCall = unsafe extern "C" fn(DpxKind, u64, In8, usize, In64, usize, In64, usize, In8, usize, u64, In8, usize, In8, usize, Out64) -> u32;

#[rustfmt::skip]
pub type GuestReadCall = unsafe extern "C" fn(DpxKind, In64, usize, In8, usize, In8, usize, In8, usize, In64, usize, Out8, usize, Out8, usize, Out64, usize, Out64) -> u32;
#[rustfmt::skip]
pub type GuestEditCall = unsafe extern "C" fn(DpxKind, u64, In8, usize, Out8, usize, Out64, usize, Out64, usize, Out8, usize, u64, In8, usize, In8, usize) -> u32;

#[rustfmt::skip]
pub type ArrangementCall = unsafe extern "C" fn(u64, u64, u64, Out8, usize, Out8, usize, Out64, usize, Out64) -> u32;

#[rustfmt::skip]
pub type MigrateStepCall = unsafe extern "C" fn(In64, usize, In64, usize, In64, usize, In8, usize, u64, Out64, usize, Out8, usize, Out64) -> u32;
#[rustfmt::skip]
pub type MigrateExtractCall = unsafe extern "C" fn(In64, usize, In64, usize, In64, usize, In64, usize, In8, usize, u64, In64, usize, In8, usize, Out8, usize, Out64, usize, Out64) -> u32;

/// The functions.
#[derive(Clone, Copy)]
pub struct Archive {
    pub encode: EncodeCall,
    pub decode: DecodeCall,
    pub decode_interleaved: InterleavedCall,
    pub extract: ExtractCall,
    pub merge: ExtractCall,
    pub partial_decode: PartialCall,
    pub reverse_endianness: ReverseCall,
    pub subset_cells: CellsCall,
    pub encode_interleaved: EncodeCall,
    pub generate: GenerateCall,
    pub table_make: MakeCall,
    pub table_read: ReadCall,
    pub table_set: SetCall,
    pub table_pack: PackCall,
    pub table_preview: PreviewCall,
    pub guest_read: GuestReadCall,
    pub guest_edit: GuestEditCall,
    pub arrangement: ArrangementCall,
    pub migrate_step: MigrateStepCall,
    pub migrate_extract: MigrateExtractCall,
}
impl Archive {
    pub fn load(path: &str) -> Result<Archive, String> {
        const NOW: c_int = 2;
        let path = CString::new(path).unwrap();
        unsafe {
            let handle = dlopen(path.as_ptr(), NOW);
            if handle.is_null() {
                return Err(CStr::from_ptr(dlerror()).to_string_lossy().into_owned());
            }
            let find = |name: &CStr| {
                let at = dlsym(handle, name.as_ptr());
                if at.is_null() { Err(format!("the archive has no {}", name.to_string_lossy())) } else { Ok(at) }
            };
            use std::mem::transmute;
            Ok(Archive {
                encode: transmute::<*mut c_void, EncodeCall>(find(c"dpx_encode")?),
                decode: transmute::<*mut c_void, DecodeCall>(find(c"dpx_decode")?),
                decode_interleaved: transmute::<*mut c_void, InterleavedCall>(find(c"dpx_decode_interleaved")?),
                extract: transmute::<*mut c_void, ExtractCall>(find(c"dpx_extract")?),
                merge: transmute::<*mut c_void, ExtractCall>(find(c"dpx_merge")?),
                partial_decode: transmute::<*mut c_void, PartialCall>(find(c"dpx_partial_decode")?),
                reverse_endianness: transmute::<*mut c_void, ReverseCall>(find(c"dpx_reverse_endianness")?),
                subset_cells: transmute::<*mut c_void, CellsCall>(find(c"dpx_subset_cells")?),
                encode_interleaved: transmute::<*mut c_void, EncodeCall>(find(c"dpx_encode_interleaved")?),
                generate: transmute::<*mut c_void, GenerateCall>(find(c"dpx_generate")?),
                table_make: transmute::<*mut c_void, MakeCall>(find(c"dpx_table_make")?),
                table_read: transmute::<*mut c_void, ReadCall>(find(c"dpx_table_read")?),
                table_set: transmute::<*mut c_void, SetCall>(find(c"dpx_table_set")?),
                table_pack: transmute::<*mut c_void, PackCall>(find(c"dpx_table_pack")?),
                table_preview: transmute::<*mut c_void, PreviewCall>(find(c"dpx_table_preview")?),
                guest_read: transmute::<*mut c_void, GuestReadCall>(find(c"dpx_guest_read")?),
                guest_edit: transmute::<*mut c_void, GuestEditCall>(find(c"dpx_guest_edit")?),
                arrangement: transmute::<*mut c_void, ArrangementCall>(find(c"dpx_arrangement")?),
                migrate_step: transmute::<*mut c_void, MigrateStepCall>(find(c"dpx_migrate_step")?),
                migrate_extract: transmute::<*mut c_void, MigrateExtractCall>(find(c"dpx_migrate_extract")?),
            })
        }
    }
}

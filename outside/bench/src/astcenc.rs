//! Arm's codec by the C interface of its versions 4 and 5 (4.2.0 and 5.3.0 were run), loaded when the benchmark runs; nothing links to it.

use std::ffi::{CString, c_char, c_int, c_void};
use std::mem::transmute;
use std::ptr::null_mut;

unsafe extern "C" {
    fn dlopen(file: *const c_char, flags: c_int) -> *mut c_void;
    fn dlsym(library: *mut c_void, name: *const c_char) -> *mut c_void;
}

const RTLD_NOW: c_int = 2;
const DECOMPRESS_ONLY: u32 = 1 << 4;
const MEDIUM: f32 = 60.0;

#[repr(C)]
struct Image {
    sizes: [u32; 3],
    texels: u32,
    layers: *mut *mut c_void,
}

/// Room for a configuration, whose fields Arm's library alone writes and reads: 120 bytes in 5.3.0.
type Config = [u64; 64];

type ConfigInit = unsafe extern "C" fn(u32, u32, u32, u32, f32, u32, *mut Config) -> c_int;
type ContextAlloc = unsafe extern "C" fn(*const Config, u32, *mut *mut c_void) -> c_int;
type Decompress = unsafe extern "C" fn(*mut c_void, *const u8, usize, *mut Image, *const [u32; 4], u32) -> c_int;

#[derive(Clone, Copy)]
pub struct Library(*mut c_void);

impl Library {
    /// The first of these files that the system's loader finds.
    pub fn open(files: &[&str]) -> Option<Library> {
        let files = files.iter().map(|&file| CString::new(file).unwrap());
        files.map(|file| unsafe { dlopen(file.as_ptr(), RTLD_NOW) }).find(|found| !found.is_null()).map(Library)
    }

    fn symbol(self, name: &str) -> *mut c_void {
        let symbol = unsafe { dlsym(self.0, CString::new(name).unwrap().as_ptr()) };
        assert!(!symbol.is_null(), "Arm's library has no {name}");
        symbol
    }

    /// One thread that decodes square images: kind 1 to sRGB bytes, kinds 0 and 2 to half floats, HDR blocks in kind 2 only.
    ///
    /// Version 5 rounds by the texels it is to write, bytes as its `decode_unorm8` and half floats as its `decode_fp16`: here that agrees with ours.
    /// Its flag ASTCENC_FLG_USE_DECODE_UNORM8 is the encoder's (decoding does not read it, and HDR profiles refuse it): it stays unset.
    pub fn decoder<T>(self, (w, h): (usize, usize), side: usize, kind: u8) -> impl Fn(&[u8], &mut [T]) {
        let profile = [1, 0, 3][kind as usize];
        let texels = if kind == 1 { 0 } else { 1 };
        let (mut config, mut context) = ([0; 64], null_mut());
        let decompress: Decompress = unsafe {
            let init: ConfigInit = transmute(self.symbol("astcenc_config_init"));
            let alloc: ContextAlloc = transmute(self.symbol("astcenc_context_alloc"));
            assert_eq!(init(profile, w as u32, h as u32, 1, MEDIUM, DECOMPRESS_ONLY, &mut config), 0);
            assert_eq!(alloc(&config, 1, &mut context), 0);
            transmute(self.symbol("astcenc_decompress_image"))
        };
        move |blocks, out| {
            assert_eq!(size_of_val(out), (4 * side * side) << texels);
            let mut layer = out.as_mut_ptr() as *mut c_void;
            let mut image = Image { sizes: [side as u32, side as u32, 1], texels, layers: &mut layer };
            let answer = unsafe { decompress(context, blocks.as_ptr(), blocks.len(), &mut image, &[0, 1, 2, 3], 0) };
            assert_eq!(answer, 0);
        }
    }
}

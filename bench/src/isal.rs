//! Intel's ISA-L, Debian's `libisal-dev`, where it is installed: its `xor_gen` puts the blockettes of a
//! parity together by XOR, which is the check fold. It is looked for when the program runs.

use std::ffi::{c_char, c_int, c_void, CStr};

type XorGen = unsafe extern "C" fn(c_int, c_int, *mut *mut c_void) -> c_int;

extern "C" {
    fn dlopen(name: *const c_char, flags: c_int) -> *mut c_void;
    fn dlsym(library: *mut c_void, name: *const c_char) -> *mut c_void;
}

const NAMES: [&CStr; 2] = [c"libisal.so.2", c"libisal.so"];
const RTLD_NOW: c_int = 2;

/// What `xor_gen` asks of every string that it reads or writes.
#[repr(align(64))]
#[derive(Clone, Copy)]
struct Blockette([u8; 256]);

/// The blockettes of a record, the last filled with zeros, and the space for the two check blockettes. Where
/// those of each parity stand is found beforehand: it is no part of the fold.
pub struct Fold {
    xor_gen: XorGen,
    blockettes: Vec<Blockette>,
    checks: [Blockette; 2],
    strings: [Vec<*mut c_void>; 2],
}

fn find() -> Option<XorGen> {
    // SAFETY: both names end in a zero byte, and `xor_gen` has this type since ISA-L's first version
    unsafe {
        let library = NAMES
            .iter()
            .map(|name| dlopen(name.as_ptr(), RTLD_NOW))
            .find(|library| !library.is_null())?;
        let found = dlsym(library, c"xor_gen".as_ptr());
        (!found.is_null()).then(|| std::mem::transmute::<*mut c_void, XorGen>(found))
    }
}

impl Fold {
    /// None where ISA-L is missing, or where a parity has a single blockette, which `xor_gen` refuses.
    pub fn of(record: &[u8]) -> Option<Fold> {
        let xor_gen = find()?;
        let mut blockettes = Vec::new();
        for bytes in record.chunks(256) {
            let mut blockette = Blockette([0; 256]);
            blockette.0[..bytes.len()].copy_from_slice(bytes);
            blockettes.push(blockette);
        }
        let n = blockettes.len();
        let of_parity = |parity: usize| -> Vec<*mut c_void> {
            let each = blockettes[(n + 1 - parity) % 2..].iter().step_by(2);
            let data = each.map(|blockette| blockette.0.as_ptr().cast_mut().cast());
            // the last is for the check
            data.chain([std::ptr::null_mut()]).collect()
        };
        let strings = [1, 0].map(of_parity);
        (n >= 4).then_some(Fold {
            xor_gen,
            blockettes,
            checks: [Blockette([0; 256]); 2],
            strings,
        })
    }

    /// Check blockette 1 and then 0, as they stand in an image.
    pub fn checks(&mut self) -> [[u8; 256]; 2] {
        self.run();
        self.checks.map(|check| check.0)
    }

    #[inline(never)]
    pub fn run(&mut self) {
        debug_assert!(self.blockettes.len() >= 4);
        for (strings, check) in self.strings.iter_mut().zip(&mut self.checks) {
            let count = strings.len();
            strings[count - 1] = check.0.as_mut_ptr().cast();
            // SAFETY: each string has 256 bytes and lives as long as `self`; only the last is written
            let failed = unsafe { (self.xor_gen)(count as c_int, 256, strings.as_mut_ptr()) };
            assert_eq!(failed, 0);
        }
        // `xor_gen` leaves the upper halves of the vector registers in use, and code without them then takes
        // up to twice as long
        #[cfg(target_arch = "x86_64")]
        if std::arch::is_x86_feature_detected!("avx") {
            // SAFETY: the processor has it
            unsafe { zero_upper() };
        }
    }
}

#[cfg(target_arch = "x86_64")]
#[target_feature(enable = "avx")]
unsafe fn zero_upper() {
    std::arch::x86_64::_mm256_zeroupper();
}

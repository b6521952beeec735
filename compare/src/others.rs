//! Other libraries that do the same work: zint, which writes marks, and libfec, which corrects blocks. bench/run builds thin functions over
//! them (bench/zint.c, bench/libfec.c) where they are installed, and they are opened here at run time: nothing else needs them.
use std::ffi::{CString, c_char, c_int, c_void};

unsafe extern "C" {
    fn dlopen(name: *const c_char, flags: c_int) -> *mut c_void;
    fn dlsym(library: *mut c_void, name: *const c_char) -> *mut c_void;
}

const NOW: c_int = 2;

/// The address of a function, from a library in the folder OTHERS.
fn function(library: &str, name: &str) -> Option<*mut c_void> {
    let path = format!("{}/{library}.so", std::env::var("OTHERS").ok()?);
    let (path, name) = (CString::new(path).ok()?, CString::new(name).ok()?);
    // SAFETY: both are strings that end in 0; the library stays open.
    let found = unsafe {
        let opened = dlopen(path.as_ptr(), NOW);
        if opened.is_null() { opened } else { dlsym(opened, name.as_ptr()) }
    };
    (!found.is_null()).then_some(found)
}

type New = unsafe extern "C" fn(c_int, c_int, c_int) -> *mut c_void;
type Write = unsafe extern "C" fn(*mut c_void, *const u8, c_int) -> c_int;
type Module = unsafe extern "C" fn(*const c_void, c_int, c_int) -> c_int;
type Free = unsafe extern "C" fn(*mut c_void);

fn int(n: usize) -> c_int {
    c_int::try_from(n).unwrap()
}

/// A writing by zint: one text at one version, level and mask.
pub struct Zint<'a> {
    symbol: *mut c_void,
    text: &'a [u8],
    write: Write,
    module: Module,
    free: Free,
}

impl<'a> Zint<'a> {
    pub fn new(version: usize, level: usize, mask: usize, text: &'a [u8]) -> Option<Self> {
        let [new, write, module, free] = ["new", "write", "module", "free"].map(|name| function("zint", &format!("bench_zint_{name}")));
        // SAFETY: the types are those of bench/zint.c.
        let (new, write, module, free) = unsafe {
            use std::mem::transmute as to;
            (to::<_, New>(new?), to::<_, Write>(write?), to::<_, Module>(module?), to::<_, Free>(free?))
        };
        // SAFETY: any numbers may be passed.
        let symbol = unsafe { new(int(version), int(level), int(mask)) };
        (!symbol.is_null()).then_some(Self { symbol, text, write, module, free })
    }

    pub fn write(&self) -> bool {
        // SAFETY: the symbol is zint's own, and the text is passed with its length.
        unsafe { (self.write)(self.symbol, self.text.as_ptr(), int(self.text.len())) == 0 }
    }

    /// Whether it wrote this square.
    pub fn wrote(&self, square: &[u8]) -> bool {
        let side = square.len().isqrt();
        // SAFETY: the function answers -1 for a place outside.
        let module = |i: usize| unsafe { (self.module)(self.symbol, int(i / side), int(i % side)) };
        square.iter().enumerate().all(|(i, &b)| module(i) == c_int::from(b))
    }
}

impl Drop for Zint<'_> {
    fn drop(&mut self) {
        // SAFETY: the symbol was made by zint and is not used after this.
        unsafe { (self.free)(self.symbol) }
    }
}

/// libfec's code of one length and parity.
pub struct Fec {
    code: *mut c_void,
    data: usize,
    correct: unsafe extern "C" fn(*mut c_void, *mut u8) -> c_int,
    parity: unsafe extern "C" fn(*mut c_void, *mut u8, c_int),
}

impl Fec {
    pub fn new(length: usize, parity: usize) -> Option<Self> {
        let [new, correct, write] = ["new", "correct", "parity"].map(|name| function("libfec", &format!("bench_fec_{name}")));
        // SAFETY: the types are those of bench/libfec.c.
        let (new, correct, write) = unsafe {
            use std::mem::transmute as to;
            let new = to::<_, unsafe extern "C" fn(c_int, c_int) -> *mut c_void>(new?);
            (new, to::<_, unsafe extern "C" fn(*mut c_void, *mut u8) -> c_int>(correct?), to::<_, unsafe extern "C" fn(*mut c_void, *mut u8, c_int)>(write?))
        };
        // SAFETY: the callers' lengths are at most 255 and their parities less.
        let code = unsafe { new(int(length), int(parity)) };
        (!code.is_null()).then_some(Self { code, data: length - parity, correct, parity: write })
    }

    /// How many bytes it corrected, or less than 0. The block has the code's length.
    pub fn correct(&self, block: &mut [u8]) -> i32 {
        // SAFETY: as said.
        unsafe { (self.correct)(self.code, block.as_mut_ptr()) }
    }

    pub fn parity(&self, block: &mut [u8]) {
        // SAFETY: the same.
        unsafe { (self.parity)(self.code, block.as_mut_ptr(), int(self.data)) }
    }
}

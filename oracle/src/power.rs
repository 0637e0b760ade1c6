//! Lends a power. The tone stack's presence factor and the compressor's gain are locals of `process`,
//! worked out there by `powf`, so no `impl` block of `lend/` reaches them. This program has a `powf` of
//! its own, which the linker takes before the C library's: it answers what is lent, and where nothing
//! is lent what the C library answers. `exp10f` stands beside it because LLVM makes a call of it out of
//! a power of ten.
use std::{
    cell::RefCell,
    ffi::{CStr, c_char, c_void},
    hint::black_box,
    sync::LazyLock,
};

type Power = Box<dyn Fn(f32, f32) -> f32>;
type Powf = extern "C" fn(f32, f32) -> f32;

thread_local! {
    static LENT: RefCell<Option<Power>> = const { RefCell::new(None) };
}

/// Does the work with `power` in the place of `powf`. To a compiler a power has no effects, and it would take one out of
/// the work, to before the loan: so it isn't shown what the work is.
pub fn with_power<R>(power: impl Fn(f32, f32) -> f32 + 'static, work: impl FnOnce() -> R) -> R {
    let work: Box<dyn FnOnce() -> R + '_> = Box::new(work);
    let unseen = black_box(work);
    LENT.with_borrow_mut(|lent| *lent = Some(Box::new(power)));
    let result = unseen();
    LENT.with_borrow_mut(|lent| *lent = None);
    result
}

fn lent(base: f32, exponent: f32) -> Option<f32> {
    LENT.with_borrow(|lent| lent.as_ref().map(|power| power(base, exponent)))
}

/// The C library's own `powf`, whatever is lent.
pub fn of_the_c_library() -> Powf {
    static FOUND: LazyLock<Powf> = LazyLock::new(|| {
        // SAFETY: the C library's `powf` takes two floats and gives one.
        unsafe { std::mem::transmute(next(c"powf")) }
    });
    *FOUND
}

// No other definition of these two names is in the program, and both have C's own signatures.
#[unsafe(no_mangle)]
extern "C" fn powf(base: f32, exponent: f32) -> f32 {
    lent(base, exponent).unwrap_or_else(|| of_the_c_library()(base, exponent))
}

#[unsafe(no_mangle)]
extern "C" fn exp10f(exponent: f32) -> f32 {
    lent(10.0, exponent).unwrap_or_else(|| {
        // SAFETY: the C library's `exp10f` takes a float and gives one.
        let power: extern "C" fn(f32) -> f32 = unsafe { std::mem::transmute(next(c"exp10f")) };
        power(exponent)
    })
}

unsafe extern "C" {
    fn dlsym(handle: *mut c_void, name: *const c_char) -> *mut c_void;
}

/// The function of this name in the libraries behind this program.
fn next(name: &CStr) -> *mut c_void {
    found(name).unwrap_or_else(|| panic!("the C library has no {name:?}"))
}

fn found(name: &CStr) -> Option<*mut c_void> {
    const RTLD_NEXT: *mut c_void = std::ptr::without_provenance_mut(usize::MAX);
    // SAFETY: the name ends in 0, and `dlsym` keeps no pointer to it.
    let found = unsafe { dlsym(RTLD_NEXT, name.as_ptr()) };
    (!found.is_null()).then_some(found)
}

/// The C library by name and version, where it tells them.
pub fn c_library() -> String {
    let Some(found) = found(c"gnu_get_libc_version") else {
        return "a C library that tells no version".into();
    };
    // SAFETY: the GNU C library's function takes nothing and gives a text that ends in 0 and stays.
    let version = unsafe {
        let version: extern "C" fn() -> *const c_char = std::mem::transmute(found);
        CStr::from_ptr(version())
    };
    format!("the GNU C library {}", version.to_string_lossy())
}

#[cfg(test)]
mod tests {
    use super::*;

    #[test]
    fn the_c_library_is_lent_nothing() {
        let [base, exponent] = black_box([4.0, 0.5]);
        let both = || {
            [
                f32::powf(base, exponent),
                of_the_c_library()(base, exponent),
            ]
        };
        assert_eq!(with_power(|_, _| 3.0, both), [3.0, 2.0]);
        assert_eq!(both(), [2.0, 2.0]);
    }
}

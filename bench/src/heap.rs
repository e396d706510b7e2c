//! The allocator of the static library: that of the C library.

#[repr(C)]
pub struct Tried {
    ok: bool,
    p: *mut u8,
}

impl Tried {
    fn of(p: *mut u8) -> Tried {
        match p.is_null() {
            true => Tried {
                ok: false,
                p: std::ptr::dangling_mut(),
            },
            false => Tried { ok: true, p },
        }
    }
}

extern "C" {
    fn malloc(n: usize) -> *mut u8;
    fn realloc(p: *mut u8, n: usize) -> *mut u8;
    fn free(p: *mut u8);
}

#[no_mangle]
pub extern "C" fn rattle_alloc(n: usize, _align: usize) -> Tried {
    Tried::of(unsafe { malloc(n) })
}

/// # Safety
/// `p` was returned by this function or `rattle_alloc`, and not freed.
#[no_mangle]
pub unsafe extern "C" fn rattle_realloc(
    p: *mut u8,
    _kept: usize,
    n: usize,
    _align: usize,
) -> Tried {
    Tried::of(unsafe { realloc(p, n) })
}

/// # Safety
/// `p` was returned by the functions above, and not freed.
#[no_mangle]
pub unsafe extern "C" fn rattle_dealloc(p: *mut u8) {
    unsafe { free(p) }
}

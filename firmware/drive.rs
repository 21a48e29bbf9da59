// A small drive firmware in Rust, for the audit: drops, nested scopes, a leaf, and a function that may not unwind. It stands without `core`, as no build of it for
// Arm is at hand; what comes first is what the compiler asks for in its place.
#![feature(no_core, lang_items, rustc_attrs, auto_traits)]
#![no_core]
#![no_std]
#![allow(internal_features, unconditional_recursion)]
#![crate_type = "lib"]

#[lang = "pointee_sized"]
pub trait PointeeSized {}

#[lang = "meta_sized"]
pub trait MetaSized: PointeeSized {}

#[lang = "sized"]
pub trait Sized: MetaSized {}

#[lang = "copy"]
pub trait Copy {}

impl Copy for u32 {}

impl<T: PointeeSized> Copy for *mut T {}

#[lang = "freeze"]
unsafe auto trait Freeze {}

#[lang = "unpin"]
pub auto trait Unpin {}

#[lang = "unsafe_unpin"]
pub unsafe auto trait UnsafeUnpin {}

#[lang = "sync"]
pub unsafe auto trait Sync {}

#[lang = "legacy_receiver"]
pub trait LegacyReceiver {}

impl<T: PointeeSized> LegacyReceiver for &mut T {}

#[lang = "drop"]
pub trait Drop {
    fn drop(&mut self);
}

#[lang = "drop_in_place"]
unsafe fn drop_in_place<T: PointeeSized>(to_drop: *mut T) {
    unsafe { drop_in_place(to_drop) }
}

#[lang = "panic_in_cleanup"]
fn panic_in_cleanup() -> ! {
    loop {}
}

#[lang = "panic_cannot_unwind"]
fn panic_cannot_unwind() -> ! {
    loop {}
}

#[lang = "eh_personality"]
extern "C" fn rust_eh_personality() {}

// ---- the firmware

unsafe extern "C-unwind" {
    fn program(page: u32) -> u32;
    fn release(page: u32);
}

pub struct Slot(u32);

impl Drop for Slot {
    #[inline(never)]
    fn drop(&mut self) {
        unsafe { release(self.0) }
    }
}

#[no_mangle]
pub unsafe extern "C-unwind" fn one(page: u32) -> u32 {
    let _slot = Slot(page);
    unsafe { program(page) }
}

#[no_mangle]
pub unsafe extern "C-unwind" fn three(page: u32) -> u32 {
    let _first = Slot(page);
    let a = unsafe { program(page) };
    let _second = Slot(a);
    let b = unsafe { program(a) };
    {
        let _third = Slot(b);
        unsafe { program(b) };
    }
    unsafe { program(b) }
}

#[no_mangle]
pub extern "C" fn leaf(page: u32) -> u32 {
    page
}

#[no_mangle]
pub unsafe extern "C" fn cannot(page: u32) -> u32 {
    let _slot = Slot(page);
    unsafe { program(page) }
}

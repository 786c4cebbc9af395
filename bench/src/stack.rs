//! The deepest stack of a call, measured on a stack of its own that was painted.

const PAINT: u8 = 0xA5;
const SIZE: usize = 16 << 20;

/// The bytes of stack that a call uses, or none where it cannot be measured.
pub fn deepest(call: &mut dyn FnMut()) -> Option<usize> {
    if crate::count::counting() {
        return None;
    }
    let empty = painted(&mut || {})?;
    let used = painted(call)?;
    Some(used.saturating_sub(empty))
}

#[cfg(target_arch = "x86_64")]
fn painted(mut call: &mut dyn FnMut()) -> Option<usize> {
    use std::arch::asm;
    use std::ffi::c_void;

    extern "C" fn enter(call: *mut c_void) {
        let call = unsafe { &mut *call.cast::<&mut dyn FnMut()>() };
        call();
    }

    let mut area = vec![PAINT; SIZE];
    let top = (area.as_mut_ptr() as usize + SIZE - 64) & !63;
    let data: *mut c_void = (&raw mut call).cast();
    unsafe {
        asm!(
            "xchg rsp, r12",
            "call {enter}",
            "mov rsp, r12",
            enter = sym enter,
            inout("r12") top => _,
            in("rdi") data,
            clobber_abi("C"),
        );
    }
    let first = area.iter().position(|&byte| byte != PAINT).unwrap_or(SIZE);
    Some((top - area.as_ptr() as usize).saturating_sub(first))
}

#[cfg(not(target_arch = "x86_64"))]
fn painted(_: &mut dyn FnMut()) -> Option<usize> {
    None
}

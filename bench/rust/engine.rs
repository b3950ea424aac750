//! The engine's kernels, called through C: once for many turns. A slice is handed over as a pointer and a length.

mod c {
    unsafe extern "C" {
        pub fn kernel_products(
            form: u8, turns: u32, a: *const u16, a_len: usize, b: *const u16, b_len: usize, out: *mut u16, out_len: usize,
        );
        pub fn kernel_products_side_by_side(
            form: u8, turns: u32, a: *const u16, a_len: usize, b: *const u16, b_len: usize, out: *mut u16, out_len: usize,
        );
        pub fn kernel_squares(form: u8, turns: u32, a: *const u16, a_len: usize, out: *mut u16, out_len: usize);
        pub fn kernel_inverses(
            form: u8, turns: u32, a: *const u16, a_len: usize, b: *const u16, b_len: usize, out: *mut u16, out_len: usize,
        );
        pub fn kernel_encodings(
            form: u8, turns: u32, a: *const u16, a_len: usize, b: *const u16, b_len: usize, out: *mut u8, out_len: usize,
            size: u8,
        );
        pub fn kernel_decodings(
            form: u8, turns: u32, bytes: *const u8, bytes_len: usize, size: u8, out: *mut u16, out_len: usize,
        );
        pub fn kernel_tags(
            form: u8, turns: u32, key: *const u16, key_len: usize, pad: *const u16, pad_len: usize, body: *mut u8,
            body_len: usize, out: *mut u16, out_len: usize,
        );
        pub fn kernel_checks(
            turns: u32, key: *const u8, key_len: usize, pads: *const u8, pads_len: usize, tickets: *const u8,
            tickets_len: usize, size: u16,
        ) -> u32;
        pub fn kernel_shifts(turns: u32, input: *const u8, input_len: usize) -> u64;
    }
}

pub fn products(form: u8, turns: u32, a: &[u16], b: &[u16], out: &mut [u16]) {
    unsafe {
        c::kernel_products(form, turns, a.as_ptr(), a.len(), b.as_ptr(), b.len(), out.as_mut_ptr(), out.len());
    }
}

pub fn products_side_by_side(form: u8, turns: u32, a: &[u16], b: &[u16], out: &mut [u16]) {
    unsafe {
        c::kernel_products_side_by_side(
            form, turns, a.as_ptr(), a.len(), b.as_ptr(), b.len(), out.as_mut_ptr(), out.len(),
        );
    }
}

pub fn squares(form: u8, turns: u32, a: &[u16], out: &mut [u16]) {
    unsafe { c::kernel_squares(form, turns, a.as_ptr(), a.len(), out.as_mut_ptr(), out.len()) }
}

pub fn inverses(form: u8, turns: u32, a: &[u16], b: &[u16], out: &mut [u16]) {
    unsafe {
        c::kernel_inverses(form, turns, a.as_ptr(), a.len(), b.as_ptr(), b.len(), out.as_mut_ptr(), out.len());
    }
}

pub fn encodings(form: u8, turns: u32, a: &[u16], b: &[u16], out: &mut [u8], size: u8) {
    unsafe {
        c::kernel_encodings(form, turns, a.as_ptr(), a.len(), b.as_ptr(), b.len(), out.as_mut_ptr(), out.len(), size);
    }
}

pub fn decodings(form: u8, turns: u32, bytes: &[u8], size: u8, out: &mut [u16]) {
    unsafe { c::kernel_decodings(form, turns, bytes.as_ptr(), bytes.len(), size, out.as_mut_ptr(), out.len()) }
}

pub fn tags(form: u8, turns: u32, key: &[u16], pad: &[u16], body: &mut [u8], out: &mut [u16]) {
    unsafe {
        c::kernel_tags(
            form, turns, key.as_ptr(), key.len(), pad.as_ptr(), pad.len(), body.as_mut_ptr(), body.len(),
            out.as_mut_ptr(), out.len(),
        );
    }
}

pub fn checks(turns: u32, key: &[u8], pads: &[u8], tickets: &[u8], size: u16) -> u32 {
    unsafe {
        c::kernel_checks(
            turns, key.as_ptr(), key.len(), pads.as_ptr(), pads.len(), tickets.as_ptr(), tickets.len(), size,
        )
    }
}

pub fn shifts(turns: u32, input: &[u8]) -> u64 {
    unsafe { c::kernel_shifts(turns, input.as_ptr(), input.len()) }
}

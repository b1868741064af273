//! The static library as `csicodec.h` declares it, which says what each struct and field means, and its calls over slices. Nothing compares
//! these declarations with the library but the tests of `csicodec`.
#![allow(missing_docs)]
#![no_std]

#[repr(C)]
#[derive(Clone, Copy, Debug, Default, PartialEq, Eq)]
pub struct Action {
    pub kind: u32,
    pub final_char: u32,
    pub first: i64,
    pub second: i64,
    pub top: u32,
    pub left: u32,
    pub bottom: u32,
    pub right: u32,
    pub place: usize,
    pub len: usize,
    pub red: u8,
    pub green: u8,
    pub blue: u8,
    pub alpha: u8,
    pub modifiers: u16,
    pub button: u8,
    pub absent: u8,
}

/// Its places have 8 bytes, which a `usize` of 32 bits hasn't.
const _: () = assert!(
    size_of::<Action>() == 64,
    "csicodec is for targets of 64 bits"
);

/// Its name up to 1.1.
#[deprecated(note = "it is Action, as `struct csicodec_action` in C")]
pub type Plain = Action;

#[repr(C)]
#[derive(Clone, Copy, Debug, Default, PartialEq, Eq)]
pub struct Param {
    pub kind: u64,
    pub value: i64,
}

#[repr(C)]
#[derive(Clone, Copy, Debug, PartialEq, Eq)]
pub struct Normalised {
    pub status: u32,
    pub start: usize,
    pub at: usize,
    pub needed: usize,
}

#[repr(C)]
#[derive(Clone, Copy, Debug, PartialEq, Eq)]
pub struct Front {
    pub status: u32,
    pub at: usize,
    pub used: usize,
    pub actions: usize,
    pub params: usize,
}

#[repr(C)]
#[derive(Clone, Copy, Debug, PartialEq, Eq)]
pub struct Encoded {
    pub status: u32,
    pub at: usize,
    pub needed: usize,
}

#[repr(C)]
#[derive(Clone, Copy, Debug, PartialEq, Eq)]
pub struct Judged {
    pub status: u32,
    pub canonical: u32,
}

#[repr(C)]
#[derive(Clone, Copy, Debug, PartialEq, Eq)]
pub struct Filtered {
    pub status: u32,
    pub mode: u32,
    pub used: usize,
    pub needed: usize,
}

#[repr(C)]
#[derive(Clone, Copy, Debug, PartialEq, Eq)]
pub struct Stripped {
    pub status: u32,
    pub needed: usize,
}

#[repr(C)]
#[derive(Clone, Copy, Debug, Default, PartialEq, Eq)]
pub struct Cleaning {
    pub mode: u32,
    pub titled: u32,
    pub styled: u32,
    pub held: u32,
}

#[repr(C)]
#[derive(Clone, Copy, Debug, PartialEq, Eq)]
pub struct Cleaned {
    pub status: u32,
    pub state: Cleaning,
    pub used: usize,
    pub needed: usize,
}

#[repr(C)]
#[derive(Clone, Copy, Debug, PartialEq, Eq)]
pub struct Spanned {
    pub status: u32,
    pub kind: u32,
    pub mode: u32,
    pub used: usize,
}

#[repr(C)]
#[derive(Clone, Copy, Debug, PartialEq, Eq)]
pub struct Told {
    pub status: u32,
    pub kind: u32,
    pub mode: u32,
    pub looked: usize,
    pub used: usize,
    pub actions: usize,
    pub params: usize,
}

#[repr(C)]
#[derive(Clone, Copy, Debug, PartialEq, Eq)]
pub struct Known {
    pub kind: u32,
    pub count: u32,
    pub values: [u32; 12],
}

#[repr(C)]
#[derive(Clone, Copy, Debug, PartialEq, Eq)]
pub struct Received {
    pub status: u32,
    pub kind: u32,
    pub mode: u32,
    pub value: u32,
    pub looked: usize,
    pub used: usize,
    pub actions: usize,
    pub params: usize,
}

#[repr(C)]
#[derive(Clone, Copy, Debug, Default, PartialEq, Eq)]
pub struct Markup {
    pub links: u32,
    pub classes: u32,
    pub fragment: u32,
    pub no_overwrite: u32,
}

#[repr(C)]
#[derive(Clone, Copy, Debug, PartialEq, Eq)]
pub struct Key {
    pub status: u32,
    pub code: u32,
    pub value: u32,
    pub modifiers: u32,
    pub event: u32,
    pub encoding: u32,
    pub typed: usize,
    pub used: usize,
}

#[repr(C)]
#[derive(Clone, Copy, Debug, PartialEq, Eq)]
pub struct Osc {
    pub kind: u32,
    pub texts: u32,
    pub first: usize,
    pub second: usize,
}

const _: () = assert!(size_of::<Action>() == 64 && size_of::<Param>() == 16);
const _: () = assert!(size_of::<Cleaning>() == 16 && size_of::<Cleaned>() == 40);
const _: () = assert!(size_of::<Known>() == 56);

unsafe extern "C" {
    fn csicodec_normalise(bytes: *const u8, len: usize, out: *mut u8, room: usize) -> Normalised;
    fn csicodec_next(
        bytes: *const u8,
        len: usize,
        actions: *mut Action,
        actions_room: usize,
        params: *mut Param,
        params_room: usize,
    ) -> Front;
    fn csicodec_terminal_actions(
        bytes: *const u8,
        len: usize,
        actions: *mut Action,
        actions_room: usize,
        params: *mut Param,
        params_room: usize,
    ) -> Front;
    fn csicodec_event(
        mode: u32,
        limit: usize,
        looked: usize,
        bytes: *const u8,
        len: usize,
        actions: *mut Action,
        actions_room: usize,
        params: *mut Param,
        params_room: usize,
    ) -> Told;
    fn csicodec_input(
        dialect: u32,
        mode: u32,
        limit: usize,
        looked: usize,
        bytes: *const u8,
        len: usize,
        actions: *mut Action,
        actions_room: usize,
        params: *mut Param,
        params_room: usize,
    ) -> Received;
    fn csicodec_pause(bytes: *const u8, len: usize) -> Received;
    fn csicodec_encode(
        actions: *const Action,
        count: usize,
        params: *const Param,
        params_count: usize,
        out: *mut u8,
        room: usize,
    ) -> Encoded;
    fn csicodec_is_canonical(
        action: *const Action,
        params: *const Param,
        params_count: usize,
    ) -> Judged;
    fn csicodec_known(action: *const Action, params: *const Param, params_count: usize) -> Known;
    fn csicodec_filter(
        mode: u32,
        limit: usize,
        bytes: *const u8,
        len: usize,
        out: *mut u8,
        room: usize,
    ) -> Filtered;
    fn csicodec_compact(
        mode: u32,
        limit: usize,
        bytes: *const u8,
        len: usize,
        out: *mut u8,
        room: usize,
    ) -> Filtered;
    fn csicodec_compact_semicolons(
        mode: u32,
        limit: usize,
        bytes: *const u8,
        len: usize,
        out: *mut u8,
        room: usize,
    ) -> Filtered;
    fn csicodec_encode_compact(
        actions: *const Action,
        count: usize,
        params: *const Param,
        params_count: usize,
        out: *mut u8,
        room: usize,
    ) -> Encoded;
    fn csicodec_strip(bytes: *const u8, len: usize, out: *mut u8, room: usize) -> Stripped;
    fn csicodec_clean(bytes: *const u8, len: usize, out: *mut u8, room: usize) -> Stripped;
    fn csicodec_clean_with(
        depth: u32,
        links: u32,
        bytes: *const u8,
        len: usize,
        out: *mut u8,
        room: usize,
    ) -> Stripped;
    fn csicodec_html(
        markup: *const Markup,
        colors: *const u32,
        count: usize,
        bytes: *const u8,
        len: usize,
        out: *mut u8,
        room: usize,
    ) -> Stripped;
    fn csicodec_overwrite(
        styles: u32,
        bytes: *const u8,
        len: usize,
        out: *mut u8,
        room: usize,
    ) -> Stripped;
    fn csicodec_compact_whole(
        semicolons: u32,
        bytes: *const u8,
        len: usize,
        out: *mut u8,
        room: usize,
    ) -> Stripped;
    fn csicodec_key(more: u32, bytes: *const u8, len: usize, typed: *mut u32, room: usize) -> Key;
    fn csicodec_osc(bytes: *const u8, len: usize) -> Osc;
    fn csicodec_strip_step(
        state: *const Cleaning,
        bytes: *const u8,
        len: usize,
        out: *mut u8,
        room: usize,
    ) -> Cleaned;
    fn csicodec_clean_step(
        depth: u32,
        state: *const Cleaning,
        bytes: *const u8,
        len: usize,
        out: *mut u8,
        room: usize,
    ) -> Cleaned;
    fn csicodec_clean_end(
        state: *const Cleaning,
        bytes: *const u8,
        len: usize,
        out: *mut u8,
        room: usize,
    ) -> Stripped;
    fn csicodec_span(mode: u32, limit: usize, bytes: *const u8, len: usize) -> Spanned;
    safe fn csicodec_esc(intermediate: u8, final_byte: u8) -> u32;
    safe fn csicodec_version() -> u32;
}

// The exports require nothing, so what is left to owe is what the slices' types say: each pointer and length is that of
// one slice, which is borrowed for the call, and the mutable ones are apart from the others.

pub fn normalise(bytes: &[u8], out: &mut [u8]) -> Normalised {
    // SAFETY: as above.
    unsafe { csicodec_normalise(bytes.as_ptr(), bytes.len(), out.as_mut_ptr(), out.len()) }
}

#[inline]
pub fn next(bytes: &[u8], actions: &mut [Action], params: &mut [Param]) -> Front {
    // SAFETY: as above.
    unsafe {
        csicodec_next(
            bytes.as_ptr(),
            bytes.len(),
            actions.as_mut_ptr(),
            actions.len(),
            params.as_mut_ptr(),
            params.len(),
        )
    }
}

pub fn terminal_actions(bytes: &[u8], actions: &mut [Action], params: &mut [Param]) -> Front {
    // SAFETY: as above.
    unsafe {
        csicodec_terminal_actions(
            bytes.as_ptr(),
            bytes.len(),
            actions.as_mut_ptr(),
            actions.len(),
            params.as_mut_ptr(),
            params.len(),
        )
    }
}

pub fn event(
    mode: u32,
    limit: usize,
    looked: usize,
    bytes: &[u8],
    actions: &mut [Action],
    params: &mut [Param],
) -> Told {
    // SAFETY: as above.
    unsafe {
        csicodec_event(
            mode,
            limit,
            looked,
            bytes.as_ptr(),
            bytes.len(),
            actions.as_mut_ptr(),
            actions.len(),
            params.as_mut_ptr(),
            params.len(),
        )
    }
}

pub fn input(
    dialect: u32,
    mode: u32,
    limit: usize,
    looked: usize,
    bytes: &[u8],
    actions: &mut [Action],
    params: &mut [Param],
) -> Received {
    // SAFETY: as above.
    unsafe {
        csicodec_input(
            dialect,
            mode,
            limit,
            looked,
            bytes.as_ptr(),
            bytes.len(),
            actions.as_mut_ptr(),
            actions.len(),
            params.as_mut_ptr(),
            params.len(),
        )
    }
}

pub fn pause(bytes: &[u8]) -> Received {
    // SAFETY: as above.
    unsafe { csicodec_pause(bytes.as_ptr(), bytes.len()) }
}

pub fn encode(actions: &[Action], params: &[Param], out: &mut [u8]) -> Encoded {
    // SAFETY: as above.
    unsafe {
        csicodec_encode(
            actions.as_ptr(),
            actions.len(),
            params.as_ptr(),
            params.len(),
            out.as_mut_ptr(),
            out.len(),
        )
    }
}

pub fn is_canonical(action: &Action, params: &[Param]) -> Judged {
    // SAFETY: as above.
    unsafe { csicodec_is_canonical(action, params.as_ptr(), params.len()) }
}

pub fn known(action: &Action, params: &[Param]) -> Known {
    // SAFETY: as above.
    unsafe { csicodec_known(action, params.as_ptr(), params.len()) }
}

pub fn filter(mode: u32, limit: usize, bytes: &[u8], out: &mut [u8]) -> Filtered {
    // SAFETY: as above.
    unsafe {
        csicodec_filter(
            mode,
            limit,
            bytes.as_ptr(),
            bytes.len(),
            out.as_mut_ptr(),
            out.len(),
        )
    }
}

pub fn compact(mode: u32, limit: usize, bytes: &[u8], out: &mut [u8]) -> Filtered {
    // SAFETY: as above.
    unsafe {
        csicodec_compact(
            mode,
            limit,
            bytes.as_ptr(),
            bytes.len(),
            out.as_mut_ptr(),
            out.len(),
        )
    }
}

pub fn compact_semicolons(mode: u32, limit: usize, bytes: &[u8], out: &mut [u8]) -> Filtered {
    // SAFETY: as above.
    unsafe {
        csicodec_compact_semicolons(
            mode,
            limit,
            bytes.as_ptr(),
            bytes.len(),
            out.as_mut_ptr(),
            out.len(),
        )
    }
}

pub fn encode_compact(actions: &[Action], params: &[Param], out: &mut [u8]) -> Encoded {
    // SAFETY: as above.
    unsafe {
        csicodec_encode_compact(
            actions.as_ptr(),
            actions.len(),
            params.as_ptr(),
            params.len(),
            out.as_mut_ptr(),
            out.len(),
        )
    }
}

pub fn strip(bytes: &[u8], out: &mut [u8]) -> Stripped {
    // SAFETY: as above.
    unsafe { csicodec_strip(bytes.as_ptr(), bytes.len(), out.as_mut_ptr(), out.len()) }
}

pub fn clean(bytes: &[u8], out: &mut [u8]) -> Stripped {
    // SAFETY: as above.
    unsafe { csicodec_clean(bytes.as_ptr(), bytes.len(), out.as_mut_ptr(), out.len()) }
}

pub fn clean_with(depth: u32, links: u32, bytes: &[u8], out: &mut [u8]) -> Stripped {
    // SAFETY: as above.
    unsafe {
        csicodec_clean_with(
            depth,
            links,
            bytes.as_ptr(),
            bytes.len(),
            out.as_mut_ptr(),
            out.len(),
        )
    }
}

pub fn html(markup: &Markup, colors: &[u32], bytes: &[u8], out: &mut [u8]) -> Stripped {
    // SAFETY: as above.
    unsafe {
        csicodec_html(
            markup,
            colors.as_ptr(),
            colors.len(),
            bytes.as_ptr(),
            bytes.len(),
            out.as_mut_ptr(),
            out.len(),
        )
    }
}

pub fn overwrite(styles: u32, bytes: &[u8], out: &mut [u8]) -> Stripped {
    // SAFETY: as above.
    unsafe {
        csicodec_overwrite(
            styles,
            bytes.as_ptr(),
            bytes.len(),
            out.as_mut_ptr(),
            out.len(),
        )
    }
}

pub fn compact_whole(semicolons: u32, bytes: &[u8], out: &mut [u8]) -> Stripped {
    // SAFETY: as above.
    unsafe {
        csicodec_compact_whole(
            semicolons,
            bytes.as_ptr(),
            bytes.len(),
            out.as_mut_ptr(),
            out.len(),
        )
    }
}

pub fn key(more: u32, bytes: &[u8], typed: &mut [u32]) -> Key {
    // SAFETY: as above.
    unsafe {
        csicodec_key(
            more,
            bytes.as_ptr(),
            bytes.len(),
            typed.as_mut_ptr(),
            typed.len(),
        )
    }
}

pub fn osc(bytes: &[u8]) -> Osc {
    // SAFETY: as above.
    unsafe { csicodec_osc(bytes.as_ptr(), bytes.len()) }
}

pub fn strip_step(state: &Cleaning, bytes: &[u8], out: &mut [u8]) -> Cleaned {
    // SAFETY: as above.
    unsafe {
        csicodec_strip_step(
            state,
            bytes.as_ptr(),
            bytes.len(),
            out.as_mut_ptr(),
            out.len(),
        )
    }
}

pub fn clean_step(depth: u32, state: &Cleaning, bytes: &[u8], out: &mut [u8]) -> Cleaned {
    // SAFETY: as above.
    unsafe {
        csicodec_clean_step(
            depth,
            state,
            bytes.as_ptr(),
            bytes.len(),
            out.as_mut_ptr(),
            out.len(),
        )
    }
}

pub fn clean_end(state: &Cleaning, bytes: &[u8], out: &mut [u8]) -> Stripped {
    // SAFETY: as above.
    unsafe {
        csicodec_clean_end(
            state,
            bytes.as_ptr(),
            bytes.len(),
            out.as_mut_ptr(),
            out.len(),
        )
    }
}

pub fn span(mode: u32, limit: usize, bytes: &[u8]) -> Spanned {
    // SAFETY: as above.
    unsafe { csicodec_span(mode, limit, bytes.as_ptr(), bytes.len()) }
}

pub fn esc(intermediate: u8, final_byte: u8) -> u32 {
    csicodec_esc(intermediate, final_byte)
}

pub fn version() -> u32 {
    csicodec_version()
}

//! The structures and the calls of `hosts/latsefur.h`, field by field.

use core::ffi::c_void;

#[repr(C)]
#[derive(Clone, Copy, Debug, Default)]
pub struct SignFacts {
    pub width: u16,
    pub height: u16,
    pub max_pages: u8,
    pub classic: u8,
}

#[repr(C)]
#[derive(Clone, Copy, Debug, Default)]
pub struct Verdict {
    pub at: usize,
    pub cycle: u32,
    pub outcome: u8,
    pub code: u8,
    pub pages: u8,
}

#[repr(C)]
#[derive(Clone, Copy, Debug, Default)]
pub struct Shown {
    pub phase: u64,
    pub page: u8,
    pub is_on: u8,
}

#[repr(C)]
pub struct Text {
    pub octets: *const u8,
    pub length: usize,
}

#[repr(C)]
#[derive(Debug)]
pub struct Handle {
    pub held: *mut c_void,
    pub full: u8,
}

#[repr(C)]
#[derive(Clone, Copy, Debug, Default)]
pub struct Reply {
    pub kind: u8,
    pub code: u8,
    pub status: u8,
    pub validate_error: u8,
    pub multi_error: u8,
    pub number: u16,
    pub multi_position: u16,
}

#[repr(C)]
#[derive(Clone, Copy, Debug, Default)]
pub struct Report {
    pub clock: u64,
    pub free: u32,
    pub requester: u32,
    pub used: u16,
    pub shown_number: u16,
    pub crc: u16,
    pub remaining: u16,
    pub position: u16,
    pub mode: u8,
    pub shown_memory: u8,
    pub priority: u8,
    pub activate: u8,
    pub validate: u8,
    pub multi: u8,
}

#[repr(C)]
#[derive(Clone, Copy, Debug, Default)]
pub struct Defaults {
    pub font: u8,
    pub line: u8,
    pub page: u8,
    pub page_on: u8,
    pub page_off: u8,
    pub flash_on: u8,
    pub flash_off: u8,
    pub fore: u8,
    pub back: u8,
}

#[repr(C)]
#[derive(Clone, Copy, Debug, Default)]
pub struct Message {
    pub multi: usize,
    pub owner: usize,
    pub crc: u16,
    pub code: u8,
    pub status: u8,
    pub priority: u8,
    pub beacon: u8,
    pub pixel: u8,
}

#[repr(C)]
#[derive(Clone, Copy, Debug, Default)]
pub struct Table {
    pub bytes: u32,
    pub slots: u16,
    pub max_string: u16,
    pub permanents: u8,
}

#[repr(C)]
#[derive(Clone, Copy, Debug, Default)]
pub struct Font {
    pub version: u16,
    pub number: u8,
    pub height: u8,
    pub char_spacing: u8,
    pub line_spacing: u8,
}

type Octets = *const u8;

#[link(name = "latsefur", kind = "static")]
extern "C" {
    pub fn latsefur_version() -> u32;
    pub fn latsefur_sign(sign_file: Octets, sign_file_len: usize, facts: *mut SignFacts) -> u8;
    pub fn latsefur_check(sign_file: Octets, sign_file_len: usize, text: Octets, text_len: usize, verdict: *mut Verdict) -> u8;
    pub fn latsefur_check_all(
        sign_file: Octets,
        sign_file_len: usize,
        texts: *const Text,
        texts_len: usize,
        verdicts: *mut Verdict,
        verdicts_len: usize,
    ) -> u8;
    pub fn latsefur_shown_at(
        sign_file: Octets,
        sign_file_len: usize,
        text: Octets,
        text_len: usize,
        clock: u64,
        shown: *mut Shown,
    ) -> u8;
    pub fn latsefur_plane_at(
        sign_file: Octets,
        sign_file_len: usize,
        text: Octets,
        text_len: usize,
        clock: u64,
        colour: u8,
        plane: *mut u8,
        plane_len: usize,
    ) -> u8;
    pub fn latsefur_plane_of_page(
        sign_file: Octets,
        sign_file_len: usize,
        text: Octets,
        text_len: usize,
        page: u8,
        phase: u64,
        colour: u8,
        plane: *mut u8,
        plane_len: usize,
    ) -> u8;
    pub fn latsefur_colours_at(
        sign_file: Octets,
        sign_file_len: usize,
        text: Octets,
        text_len: usize,
        clock: u64,
        colours: *mut u8,
        colours_len: usize,
    ) -> u8;
    pub fn latsefur_colours_of_page(
        sign_file: Octets,
        sign_file_len: usize,
        text: Octets,
        text_len: usize,
        page: u8,
        phase: u64,
        colours: *mut u8,
        colours_len: usize,
    ) -> u8;
    pub fn latsefur_explain(
        sign_file: Octets,
        sign_file_len: usize,
        text: Octets,
        text_len: usize,
        pictures: u8,
        told: *mut u8,
        told_len: usize,
        count: *mut usize,
    ) -> u8;
    pub fn latsefur_film(
        sign_file: Octets,
        sign_file_len: usize,
        text: Octets,
        text_len: usize,
        side: u8,
        seconds: u16,
        film: *mut u8,
        film_len: usize,
        count: *mut usize,
    ) -> u8;
    pub fn latsefur_sentence(kind: u8, number: u8, told: *mut u8, told_len: usize, count: *mut usize) -> u8;
    pub fn latsefur_controller_new(sign_file: Octets, sign_file_len: usize, handle: *mut Handle) -> u8;
    pub fn latsefur_controller_free(handle: *mut Handle);
    pub fn latsefur_request(handle: *mut Handle, memory: u8, number: u16, status: u8, reply: *mut Reply) -> u8;
    pub fn latsefur_set_multi(handle: *mut Handle, memory: u8, number: u16, text: Octets, text_len: usize, reply: *mut Reply) -> u8;
    pub fn latsefur_set_owner(handle: *mut Handle, memory: u8, number: u16, owner: Octets, owner_len: usize, reply: *mut Reply) -> u8;
    pub fn latsefur_set_priority(handle: *mut Handle, memory: u8, number: u16, value: u8, reply: *mut Reply) -> u8;
    pub fn latsefur_set_beacon(handle: *mut Handle, memory: u8, number: u16, value: u8, reply: *mut Reply) -> u8;
    pub fn latsefur_set_pixel_service(handle: *mut Handle, memory: u8, number: u16, value: u8, reply: *mut Reply) -> u8;
    pub fn latsefur_clear(handle: *mut Handle, reply: *mut Reply) -> u8;
    pub fn latsefur_work(handle: *mut Handle, reply: *mut Reply) -> u8;
    pub fn latsefur_activate(handle: *mut Handle, code: Octets, code_len: usize, reply: *mut Reply) -> u8;
    pub fn latsefur_set_end(handle: *mut Handle, code: Octets, code_len: usize, reply: *mut Reply) -> u8;
    pub fn latsefur_tick(handle: *mut Handle, tenths: u32, reply: *mut Reply) -> u8;
    pub fn latsefur_set_default(handle: *mut Handle, field: u8, value: u8, reply: *mut Reply) -> u8;
    pub fn latsefur_report(handle: *mut Handle, report: *mut Report) -> u8;
    pub fn latsefur_defaults(handle: *mut Handle, defaults: *mut Defaults) -> u8;
    pub fn latsefur_steps(handle: *mut Handle, steps: *mut u64) -> u8;
    pub fn latsefur_row(
        handle: *mut Handle,
        memory: u8,
        number: u16,
        row: *mut Message,
        text: *mut u8,
        text_len: usize,
        owner: *mut u8,
        owner_len: usize,
    ) -> u8;
    pub fn latsefur_frame(handle: *mut Handle, colour: u8, shown: *mut Shown, plane: *mut u8, plane_len: usize) -> u8;
    pub fn latsefur_colours(handle: *mut Handle, shown: *mut Shown, colours: *mut u8, colours_len: usize) -> u8;
    pub fn latsefur_next_change(handle: *mut Handle, most: u32, tenths: *mut u32) -> u8;
    pub fn latsefur_held_table(handle: *mut Handle, table: *mut Table) -> u8;
    pub fn latsefur_held_font(handle: *mut Handle, number: u8, font: *mut Font) -> u8;
    pub fn latsefur_held_check(handle: *mut Handle, text: Octets, text_len: usize, verdict: *mut Verdict) -> u8;
    pub fn latsefur_held_plane_of_page(
        handle: *mut Handle,
        text: Octets,
        text_len: usize,
        page: u8,
        phase: u64,
        colour: u8,
        plane: *mut u8,
        plane_len: usize,
    ) -> u8;
    pub fn latsefur_held_colours_of_page(
        handle: *mut Handle,
        text: Octets,
        text_len: usize,
        page: u8,
        phase: u64,
        colours: *mut u8,
        colours_len: usize,
    ) -> u8;
    pub fn latsefur_save_size(handle: *mut Handle, size: *mut usize) -> u8;
    pub fn latsefur_save(handle: *mut Handle, octets: *mut u8, octets_len: usize, count: *mut usize) -> u8;
    pub fn latsefur_restore(handle: *mut Handle, octets: Octets, octets_len: usize, fault: *mut u8) -> u8;
    pub fn latsefur_revision(handle: *mut Handle, revision: *mut u64) -> u8;
    pub fn latsefur_end(handle: *mut Handle, code: *mut u8, code_len: usize) -> u8;
    pub fn latsefur_message_crc(text: Octets, text_len: usize, beacon: u8, pixel: u8) -> u16;
}

//! Tuhvondi's proved libraries of images and of one router, as C has them. The headers `tuhvondi.h` and `tuhvondi_router.h`,
//! which are installed with the archive, say what each function does, and by which rules it is called. The crate `tuhvondi`
//! keeps these rules by its types.

use std::ffi::c_void;
use std::ptr::null_mut;

/// A handle of C's: what it holds, and whether it holds any. Only the libraries read or write it.
#[repr(C)]
pub struct Handle {
    place: *mut c_void,
    holds: bool,
}

impl Handle {
    pub const EMPTY: Handle = Handle {
        place: null_mut(),
        holds: false,
    };
}

/// A row. Its kind is 0: local, 1: via a port, 2: unreachable, or 3: there is none.
#[repr(C)]
#[derive(Clone, Copy, Debug, PartialEq, Eq, Hash)]
pub struct Row {
    pub addr: u32,
    pub len: u8,
    pub kind: u8,
    pub port: u8,
    pub session: u16,
}

/// A prefix. The order is by address, and then by length.
#[repr(C)]
#[derive(Clone, Copy, Debug, PartialEq, Eq, PartialOrd, Ord, Hash)]
pub struct Prefix {
    pub addr: u32,
    pub len: u8,
}

/// Where a listing of rows goes on: at a prefix, or, with the length 33, nowhere.
#[repr(C)]
#[derive(Clone, Copy)]
pub struct Cursor {
    pub addr: u32,
    pub len: u8,
}

#[repr(C)]
#[derive(Clone, Copy)]
pub struct Attachment {
    pub addr: u32,
    pub cost: u32,
    pub len: u8,
}

#[repr(C)]
#[derive(Clone, Copy, Default)]
pub struct Frame {
    pub addr: u32,
    pub value: u32,
    pub session: u16,
    pub len: u8,
    pub kind: u8,
    pub port: u8,
}

#[repr(C)]
#[derive(Clone, Copy, Default)]
pub struct Counts {
    pub prefixes: usize,
    pub changed: usize,
    pub held: usize,
    pub ripe: usize,
    pub generation: u64,
    pub due: u8,
}

#[repr(C)]
#[derive(Clone, Copy)]
pub struct State {
    pub rd: u32,
    pub fd: u32,
    pub attached: u32,
    pub chosen: Row,
    pub published: Row,
    pub active: u8,
    pub owed: u8,
    pub awaited: [u8; 32],
}

unsafe extern "C" {
    pub fn tuhvondi_writer_new(image: *mut Handle, readers: usize, writer: *mut Handle) -> u32;
    pub fn tuhvondi_writer_publish(
        writer: *mut Handle,
        generation: u64,
        rows: *const Row,
        count: usize,
        prefixes: *const Prefix,
        prefix_count: usize,
    ) -> u32;
    pub fn tuhvondi_writer_published(writer: *mut Handle, published: *mut u64) -> u32;
    pub fn tuhvondi_reader_learn(reader: *mut Handle, published: u64) -> u32;
    pub fn tuhvondi_writer_reader(writer: *mut Handle, reader: *mut Handle) -> u32;
    pub fn tuhvondi_writer_free(writer: *mut Handle);
    pub fn tuhvondi_reader_lookup(
        reader: *mut Handle,
        addrs: *const u32,
        count: usize,
        answers: *mut Row,
        answer_count: usize,
        generation: *mut u64,
    ) -> u32;
    pub fn tuhvondi_writer_publish_words(
        writer: *mut Handle,
        generation: u64,
        rows: *const Row,
        count: usize,
        words: *const u32,
        word_count: usize,
        prefixes: *const Prefix,
        prefix_count: usize,
    ) -> u32;
    pub fn tuhvondi_reader_lookup_words(
        reader: *mut Handle,
        addrs: *const u32,
        count: usize,
        words: *mut u32,
        word_count: usize,
        generation: *mut u64,
    ) -> u32;
    pub fn tuhvondi_reader_free(reader: *mut Handle);
    pub fn tuhvondi_image_new(rows: *const Row, count: usize, image: *mut Handle) -> u32;
    pub fn tuhvondi_image_apply(
        image: *mut Handle,
        generation: u64,
        rows: *const Row,
        count: usize,
    ) -> u32;
    pub fn tuhvondi_image_remove(
        image: *mut Handle,
        generation: u64,
        prefixes: *const Prefix,
        count: usize,
    ) -> u32;
    pub fn tuhvondi_image_row_count(image: *mut Handle, count: *mut usize) -> u32;
    pub fn tuhvondi_image_bytes(image: *mut Handle, bytes: *mut usize) -> u32;
    pub fn tuhvondi_image_share(image: *mut Handle, other: *mut Handle) -> u32;
    pub fn tuhvondi_image_copy(image: *mut Handle, other: *mut Handle) -> u32;
    pub fn tuhvondi_image_lookup(
        image: *mut Handle,
        addrs: *const u32,
        addr_count: usize,
        answers: *mut Row,
        answer_count: usize,
    ) -> u32;
    pub fn tuhvondi_image_new_words(
        rows: *const Row,
        count: usize,
        words: *const u32,
        word_count: usize,
        image: *mut Handle,
    ) -> u32;
    pub fn tuhvondi_image_apply_words(
        image: *mut Handle,
        generation: u64,
        rows: *const Row,
        count: usize,
        words: *const u32,
        word_count: usize,
    ) -> u32;
    pub fn tuhvondi_image_lookup_words(
        image: *mut Handle,
        addrs: *const u32,
        addr_count: usize,
        words: *mut u32,
        word_count: usize,
    ) -> u32;
    pub fn tuhvondi_image_rows_words(
        image: *mut Handle,
        from: *mut Cursor,
        rows: *mut Row,
        count: usize,
        words: *mut u32,
        word_count: usize,
        written: *mut usize,
    ) -> u32;
    pub fn tuhvondi_image_generation(image: *mut Handle, generation: *mut u64) -> u32;
    pub fn tuhvondi_image_free(image: *mut Handle);

    pub fn tuhvondi_router_new(
        costs: *const u32,
        cost_count: usize,
        attachments: *const Attachment,
        attachment_count: usize,
        most_prefixes: usize,
        router: *mut Handle,
    ) -> u32;
    pub fn tuhvondi_router_link_up(router: *mut Handle, port: u8, session: u16, cost: u32) -> u32;
    pub fn tuhvondi_router_link_down(router: *mut Handle, port: u8) -> u32;
    pub fn tuhvondi_router_link_cost(router: *mut Handle, port: u8, cost: u32) -> u32;
    pub fn tuhvondi_router_message(router: *mut Handle, message: *const Frame) -> u32;
    pub fn tuhvondi_router_attached(router: *mut Handle, addr: u32, len: u8, cost: u32) -> u32;
    pub fn tuhvondi_router_detached(router: *mut Handle, addr: u32, len: u8) -> u32;
    pub fn tuhvondi_router_counts(router: *mut Handle, counts: *mut Counts) -> u32;
    pub fn tuhvondi_router_publish(
        router: *mut Handle,
        rows: *mut Row,
        row_count: usize,
        written: *mut usize,
        more: *mut u8,
        generation: *mut u64,
    ) -> u32;
    pub fn tuhvondi_router_release(router: *mut Handle, message: *mut Frame) -> u32;
    pub fn tuhvondi_router_state(router: *mut Handle, addr: u32, len: u8, state: *mut State)
    -> u32;
    pub fn tuhvondi_router_rows(
        router: *mut Handle,
        rows: *mut Row,
        row_count: usize,
        written: *mut usize,
    ) -> u32;
    pub fn tuhvondi_router_forget(router: *mut Handle, addr: u32, len: u8) -> u32;
    pub fn tuhvondi_router_free(router: *mut Handle);
}

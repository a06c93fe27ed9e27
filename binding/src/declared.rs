//! The calls as `include/pottagewing.h` declares them.

use crate::{PLACE_WORDS, REPLAY_WORDS, VALUES};

type Values = [i64; VALUES];
type Words = [u64; REPLAY_WORDS];
type Place = [u64; PLACE_WORDS];

unsafe extern "C" {
    pub fn pw_version() -> u32;
    pub fn pw_decode(bytes: *const u8, n: usize, answer: *mut Values) -> u32;
    pub fn pw_encode(
        first: u8,
        a: i32,
        b: i32,
        c: i32,
        out: *mut u8,
        n: usize,
        answer: *mut Values,
    ) -> u32;
    pub fn pw_resolve(
        mode: u32,
        first: u8,
        a: i32,
        b: i32,
        c: i32,
        base: u32,
        answer: *mut Values,
    ) -> u32;
    pub fn pw_targets(
        mode: u32,
        position: u32,
        first: u8,
        a: i32,
        b: i32,
        c: i32,
        answer: *mut Values,
    ) -> u32;
    pub fn pw_start(
        image: *const u8,
        image_length: usize,
        marks: *mut u8,
        marks_length: usize,
        entries: *const u32,
        entries_length: usize,
        pins: *const u32,
        pins_length: usize,
        answer: *mut Values,
    ) -> u32;
    pub fn pw_step(
        mode: u32,
        image: *const u8,
        image_length: usize,
        marks: *mut u8,
        marks_length: usize,
        position: u32,
        answer: *mut Values,
    ) -> u32;
    pub fn pw_run(
        mode: u32,
        image: *const u8,
        image_length: usize,
        marks: *mut u8,
        marks_length: usize,
        order: *mut u32,
        order_length: usize,
        entries: *const u32,
        entries_length: usize,
        pins: *const u32,
        pins_length: usize,
        limit: u32,
        answer: *mut Values,
    ) -> u32;
    pub fn pw_sweep(
        mode: u32,
        image: *const u8,
        image_length: usize,
        marks: *mut u8,
        marks_length: usize,
        entries: *const u32,
        entries_length: usize,
        pins: *const u32,
        pins_length: usize,
        answer: *mut Values,
    ) -> u32;
    pub fn pw_mask(
        image: *const u8,
        image_length: usize,
        marks: *const u8,
        marks_length: usize,
        mask: *mut u8,
        mask_length: usize,
        answer: *mut Values,
    ) -> u32;
    pub fn pw_target_marks(
        mode: u32,
        image: *const u8,
        image_length: usize,
        marks: *const u8,
        marks_length: usize,
        room: *mut u8,
        room_length: usize,
        answer: *mut Values,
    ) -> u32;
    pub fn pw_overlaps(
        image: *const u8,
        image_length: usize,
        marks: *const u8,
        marks_length: usize,
        position: u32,
        room: *mut u32,
        room_length: usize,
        answer: *mut Values,
    ) -> u32;
    pub fn pw_arrivals(
        mode: u32,
        image: *const u8,
        image_length: usize,
        marks: *const u8,
        marks_length: usize,
        position: u32,
        room: *mut u32,
        room_length: usize,
        answer: *mut Values,
    ) -> u32;
    pub fn pw_data_run(
        image: *const u8,
        image_length: usize,
        mask: *const u8,
        mask_length: usize,
        position: u32,
        answer: *mut Values,
    ) -> u32;
    pub fn pw_listing(
        mode: u32,
        image: *const u8,
        image_length: usize,
        marks: *const u8,
        marks_length: usize,
        arrivals: u32,
        room: *mut u8,
        room_length: usize,
        answer: *mut Values,
    ) -> u32;
    pub fn pw_code_line(
        mode: u32,
        position: u32,
        bytes: *const u8,
        n: usize,
        room: *mut u8,
        room_length: usize,
        answer: *mut Values,
    ) -> u32;
    pub fn pw_list_text(
        text: *const u8,
        text_length: usize,
        room: *mut u8,
        room_length: usize,
        answer: *mut Values,
    ) -> u32;
    pub fn pw_parse(
        text: *const u8,
        text_length: usize,
        entries: *mut u32,
        entries_length: usize,
        image: *mut u8,
        image_length: usize,
        answer: *mut Values,
    ) -> u32;
    pub fn pw_report_text(
        text: *const u8,
        text_length: usize,
        room: *mut u8,
        room_length: usize,
        answer: *mut Values,
    ) -> u32;
    pub fn pw_read_back(
        mode: u32,
        text: *const u8,
        text_length: usize,
        length: u32,
        image: *mut u8,
        image_length: usize,
        marks: *mut u8,
        marks_length: usize,
        answer: *mut Values,
    ) -> u32;
    pub fn pw_read_line(
        mode: u32,
        text: *const u8,
        text_length: usize,
        place: *mut Place,
        answer: *mut Values,
    ) -> u32;
    pub fn pw_unlist_text(
        text: *const u8,
        text_length: usize,
        length: u32,
        room: *mut u8,
        room_length: usize,
        answer: *mut Values,
    ) -> u32;
    pub fn pw_map_build(
        image: *const u8,
        image_length: usize,
        marks: *const u8,
        marks_length: usize,
        words: *mut u64,
        words_length: usize,
        answer: *mut Values,
    ) -> u32;
    pub fn pw_map_test(
        words: *const u64,
        words_length: usize,
        length: u32,
        position: u32,
        answer: *mut Values,
    ) -> u32;
    pub fn pw_map_count(
        words: *const u64,
        words_length: usize,
        length: u32,
        begin: u32,
        end: u32,
        answer: *mut Values,
    ) -> u32;
    pub fn pw_map_first_data(
        words: *const u64,
        words_length: usize,
        length: u32,
        position: u32,
        answer: *mut Values,
    ) -> u32;
    pub fn pw_map_update(
        image: *const u8,
        image_length: usize,
        marks: *const u8,
        marks_length: usize,
        words: *mut u64,
        words_length: usize,
        position: u32,
        answer: *mut Values,
    ) -> u32;
    pub fn pw_replay(
        mode: u32,
        text: *const u8,
        text_length: usize,
        image: *const u8,
        image_length: usize,
        marks: *const u8,
        marks_length: usize,
        entries: *const u32,
        entries_length: usize,
        counts: *mut u64,
        counts_length: usize,
        answer: *mut Values,
    ) -> u32;
    pub fn pw_replay_open(record: *mut Words);
    pub fn pw_replay_block(
        mode: u32,
        record: *mut Words,
        text: *const u8,
        text_length: usize,
        image: *const u8,
        image_length: usize,
        marks: *const u8,
        marks_length: usize,
        entries: *const u32,
        entries_length: usize,
        counts: *mut u64,
        counts_length: usize,
        answer: *mut Values,
    ) -> u32;
    pub fn pw_replay_close(record: *const Words, answer: *mut Values) -> u32;
}

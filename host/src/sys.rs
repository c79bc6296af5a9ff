//! The C functions of `include/valdrabus.h`, as they are. The crate's root wraps them; what each does, and what a caller owes, stands in the header.

unsafe extern "C" {
    pub fn valdrabus_version() -> u32;
    pub fn valdrabus_as_str_in(
        kind: u32,
        synthetic: u32,
        start: u32,
        end: u32,
        source: *const u8,
        source_len: usize,
        setting: u32,
        out: *mut u8,
        out_len: usize,
        how: *mut u32,
        first: *mut usize,
        second: *mut usize,
        place: *mut usize,
    ) -> u32;
    pub fn valdrabus_as_decimal_text(
        kind: u32,
        synthetic: u32,
        start: u32,
        end: u32,
        source: *const u8,
        source_len: usize,
        out: *mut u8,
        out_len: usize,
        how: *mut u32,
        first: *mut usize,
        second: *mut usize,
    ) -> u32;
    pub fn valdrabus_as_bit_text(
        kind: u32,
        synthetic: u32,
        start: u32,
        end: u32,
        source: *const u8,
        source_len: usize,
        out: *mut u8,
        out_len: usize,
        how: *mut u32,
        first: *mut usize,
        second: *mut usize,
    ) -> u32;
    pub fn valdrabus_as_temporal_text(
        kind: u32,
        synthetic: u32,
        start: u32,
        end: u32,
        source: *const u8,
        source_len: usize,
        out: *mut u8,
        out_len: usize,
        how: *mut u32,
        first: *mut usize,
        second: *mut usize,
        place: *mut usize,
    ) -> u32;
    pub fn valdrabus_read_block(
        items: *const u32,
        items_len: usize,
        source: *const u8,
        source_len: usize,
        answers: *mut u32,
        answers_len: usize,
        out: *mut u8,
        out_len: usize,
    ) -> u32;
    pub fn valdrabus_source_text(
        kind: u32,
        synthetic: u32,
        start: u32,
        end: u32,
        source: *const u8,
        source_len: usize,
        how: *mut u32,
        first: *mut usize,
        second: *mut usize,
    ) -> u32;
    pub fn valdrabus_as_money_text(
        kind: u32,
        synthetic: u32,
        start: u32,
        end: u32,
        source: *const u8,
        source_len: usize,
        how: *mut u32,
        first: *mut usize,
        second: *mut usize,
    ) -> u32;
    pub fn valdrabus_charset_introducer(
        kind: u32,
        synthetic: u32,
        start: u32,
        end: u32,
        source: *const u8,
        source_len: usize,
        how: *mut u32,
        first: *mut usize,
        second: *mut usize,
    ) -> u32;
    pub fn valdrabus_as_i64(
        kind: u32,
        synthetic: u32,
        start: u32,
        end: u32,
        source: *const u8,
        source_len: usize,
        value: *mut i64,
        first: *mut usize,
        second: *mut usize,
    ) -> u32;
    pub fn valdrabus_as_bool(kind: u32, value: *mut u32, first: *mut usize, second: *mut usize) -> u32;
    pub fn valdrabus_as_null(kind: u32, first: *mut usize, second: *mut usize) -> u32;
    pub fn valdrabus_is_null(kind: u32) -> bool;
    pub fn valdrabus_as_date(
        kind: u32,
        synthetic: u32,
        start: u32,
        end: u32,
        source: *const u8,
        source_len: usize,
        year: *mut u32,
        month: *mut u32,
        day: *mut u32,
        number: *mut u32,
        first: *mut usize,
        second: *mut usize,
    ) -> u32;
    pub fn valdrabus_date_of_day(number: u32, year: *mut u32, month: *mut u32, day: *mut u32) -> u32;
    pub fn valdrabus_as_packed_bits(
        kind: u32,
        synthetic: u32,
        start: u32,
        end: u32,
        source: *const u8,
        source_len: usize,
        out: *mut u8,
        out_len: usize,
        bits: *mut u64,
        how: *mut u32,
        first: *mut usize,
        second: *mut usize,
    ) -> u32;
    pub fn valdrabus_write_bit_literal(
        bytes: *const u8,
        bytes_len: usize,
        bits: u64,
        kind: u32,
        out: *mut u8,
        out_len: usize,
        len: *mut usize,
    ) -> u32;
    pub fn valdrabus_view(
        how: u32,
        first: usize,
        second: usize,
        source_len: usize,
        out_len: usize,
        from: *mut usize,
        until: *mut usize,
    ) -> u32;
    pub fn valdrabus_write_literal(
        value: *const u8,
        value_len: usize,
        setting: u32,
        out: *mut u8,
        out_len: usize,
        len: *mut usize,
    ) -> u32;
    pub fn valdrabus_write_parts(
        value: *const u8,
        value_len: usize,
        part_size: usize,
        setting: u32,
        out: *mut u8,
        out_len: usize,
        len: *mut usize,
    ) -> u32;
    pub fn valdrabus_write_escape(
        value: *const u8,
        value_len: usize,
        out: *mut u8,
        out_len: usize,
        len: *mut usize,
    ) -> u32;
    pub fn valdrabus_write_unicode(
        value: *const u8,
        value_len: usize,
        out: *mut u8,
        out_len: usize,
        len: *mut usize,
    ) -> u32;
    pub fn valdrabus_split_radix_prefix(text: *const u8, text_len: usize, start: *mut usize) -> u32;
    pub fn valdrabus_uescape_argument_is_legal(text: *const u8, text_len: usize) -> bool;
    pub fn valdrabus_postgres_escape_string_is_valid(text: *const u8, text_len: usize) -> bool;
    pub fn valdrabus_unicode_escape_string_is_valid(text: *const u8, text_len: usize) -> bool;
    pub fn valdrabus_string_literal_embeds_nul(text: *const u8, text_len: usize) -> bool;
    pub fn valdrabus_is_unicode_ident(text: *const u8, text_len: usize) -> bool;
    pub fn valdrabus_materialize_unicode_ident(
        text: *const u8,
        text_len: usize,
        out: *mut u8,
        out_len: usize,
        how: *mut u32,
        first: *mut usize,
        second: *mut usize,
    ) -> u32;
}

//! The library's functions as `include/flash.h` declares them: a slice is a pointer and a length.

extern "C" {
    pub fn flash_record_len() -> usize;

    pub fn flash_new(
        firmware: *const u8,
        firmware_len: usize,
        record: *mut u8,
        record_len: usize,
        array: *mut u8,
        array_len: usize,
        charges: *const u64,
        charges_len: usize,
    ) -> u32;

    pub fn flash_write_register(
        record: *mut u8,
        record_len: usize,
        array: *mut u8,
        array_len: usize,
        charges: *mut u64,
        charges_len: usize,
        events: *mut u64,
        events_len: usize,
        address: u16,
        value: u8,
        seconds: u64,
        fraction: u64,
        count: *mut u64,
    ) -> u32;

    pub fn flash_write8(
        record: *mut u8,
        record_len: usize,
        array: *mut u8,
        array_len: usize,
        charges: *mut u64,
        charges_len: usize,
        events: *mut u64,
        events_len: usize,
        address: u16,
        value: u8,
        seconds: u64,
        fraction: u64,
        count: *mut u64,
    ) -> u32;

    pub fn flash_read8(
        record: *mut u8,
        record_len: usize,
        array: *mut u8,
        array_len: usize,
        charges: *mut u64,
        charges_len: usize,
        events: *mut u64,
        events_len: usize,
        address: u16,
        seconds: u64,
        fraction: u64,
        value: *mut u8,
        count: *mut u64,
    ) -> u32;

    pub fn flash_read16(
        record: *mut u8,
        record_len: usize,
        array: *mut u8,
        array_len: usize,
        charges: *mut u64,
        charges_len: usize,
        events: *mut u64,
        events_len: usize,
        address: u16,
        seconds: u64,
        fraction: u64,
        value: *mut u16,
        count: *mut u64,
    ) -> u32;

    pub fn flash_protect(
        record: *mut u8,
        record_len: usize,
        array: *mut u8,
        array_len: usize,
        charges: *mut u64,
        charges_len: usize,
        events: *mut u64,
        events_len: usize,
        seconds: u64,
        fraction: u64,
        count: *mut u64,
    ) -> u32;

    pub fn flash_reset(
        record: *mut u8,
        record_len: usize,
        array: *mut u8,
        array_len: usize,
        charges: *mut u64,
        charges_len: usize,
        events: *mut u64,
        events_len: usize,
        seconds: u64,
        fraction: u64,
        count: *mut u64,
    ) -> u32;

    pub fn flash_power_off(
        record: *mut u8,
        record_len: usize,
        array: *mut u8,
        array_len: usize,
        charges: *mut u64,
        charges_len: usize,
        events: *mut u64,
        events_len: usize,
        seconds: u64,
        fraction: u64,
        count: *mut u64,
    ) -> u32;

    pub fn flash_environment(
        record: *mut u8,
        record_len: usize,
        array: *mut u8,
        array_len: usize,
        charges: *mut u64,
        charges_len: usize,
        events: *mut u64,
        events_len: usize,
        mode: u8,
        module: bool,
        oscillator: bool,
        seconds: u64,
        fraction: u64,
        count: *mut u64,
    ) -> u32;

    pub fn flash_register(
        record: *const u8,
        record_len: usize,
        address: u16,
        value: *mut u8,
    ) -> u32;

    pub fn flash_normal(
        record: *const u8,
        record_len: usize,
        seconds: u64,
        fraction: u64,
        normal: *mut u8,
    ) -> u32;

    pub fn flash_peek(
        record: *const u8,
        record_len: usize,
        array: *const u8,
        array_len: usize,
        charges: *const u64,
        charges_len: usize,
        address: u16,
        seconds: u64,
        fraction: u64,
        value: *mut u8,
    ) -> u32;

    pub fn flash_cell_charge(
        record: *const u8,
        record_len: usize,
        array: *const u8,
        array_len: usize,
        charges: *const u64,
        charges_len: usize,
        address: u16,
        bit: u8,
        seconds: u64,
        fraction: u64,
        charge: *mut u64,
    ) -> u32;

    pub fn flash_blank_page(
        record: *const u8,
        record_len: usize,
        array: *const u8,
        array_len: usize,
        charges: *const u64,
        charges_len: usize,
        address: u16,
        seconds: u64,
        fraction: u64,
        blank: *mut u8,
    ) -> u32;

    pub fn flash_image(
        record: *const u8,
        record_len: usize,
        array: *const u8,
        array_len: usize,
        charges: *const u64,
        charges_len: usize,
        seconds: u64,
        fraction: u64,
        out: *mut u8,
        out_len: usize,
    ) -> u32;

    pub fn flash_validate(
        record: *const u8,
        record_len: usize,
        seconds: u64,
        fraction: u64,
        valid: *mut u8,
    ) -> u32;

    pub fn flash_write_snapshot(
        record: *const u8,
        record_len: usize,
        array: *const u8,
        array_len: usize,
        charges: *const u64,
        charges_len: usize,
        out: *mut u8,
        out_len: usize,
        length: *mut u64,
    ) -> u32;

    pub fn flash_read_snapshot(
        bytes: *const u8,
        bytes_len: usize,
        record: *mut u8,
        record_len: usize,
        array: *mut u8,
        array_len: usize,
        charges: *mut u64,
        charges_len: usize,
        seconds: u64,
        fraction: u64,
    ) -> u32;
}

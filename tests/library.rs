//! The library's C interface.

/// As in phc.h.
pub const PHC_ROOM: usize = 265;
pub const PHC_DIRECTORY_ROOM: usize = 171;
pub const PHC_RECORD: usize = 20;
pub const PHC_RECORD_ALL: usize = 36;
pub const PHC_BYTES: usize = 152;
pub const PHC_BATCH: usize = 16;

pub type StringEntry = unsafe extern "C" fn(*const u8, usize, *mut u8, usize) -> u64;
pub type ReadAllEntry = unsafe extern "C" fn(*const u8, usize, *mut u8, usize, *mut u8, usize) -> u64;
pub type WriteEntry = unsafe extern "C" fn(
    u8, u8, u32, u32, u32, u32,
    *const u8, usize, *const u8, usize,
    *const u8, usize, *const u8, usize,
    *mut u8, usize,
) -> u64;

extern "C" {
    pub fn phc_read(s: *const u8, s_len: usize, record: *mut u8, record_len: usize) -> u64;
    pub fn phc_algorithm_version(s: *const u8, s_len: usize) -> u64;
    pub fn phc_keyid(s: *const u8, s_len: usize, buf: *mut u8, buf_len: usize) -> u64;
    pub fn phc_data(s: *const u8, s_len: usize, buf: *mut u8, buf_len: usize) -> u64;
    pub fn phc_salt(s: *const u8, s_len: usize, buf: *mut u8, buf_len: usize) -> u64;
    pub fn phc_output(s: *const u8, s_len: usize, buf: *mut u8, buf_len: usize) -> u64;
    pub fn phc_read_all(s: *const u8, s_len: usize, record: *mut u8, record_len: usize, buf: *mut u8, buf_len: usize) -> u64;
    pub fn phc_write(
        id: u8, has_version: u8, version: u32, m: u32, t: u32, p: u32,
        keyid: *const u8, keyid_len: usize, data: *const u8, data_len: usize,
        salt: *const u8, salt_len: usize, output: *const u8, output_len: usize,
        buf: *mut u8, buf_len: usize,
    ) -> u64;
    pub fn phc_write_short(
        id: u8, salt: *const u8, salt_len: usize, output: *const u8, output_len: usize, buf: *mut u8, buf_len: usize,
    ) -> u64;
    pub fn phc_directory_read_all(
        t: *const u8, t_len: usize, record: *mut u8, record_len: usize, buf: *mut u8, buf_len: usize,
    ) -> u64;
    pub fn phc_directory_write(
        id: u8, has_version: u8, version: u32, m: u32, t: u32, p: u32,
        keyid: *const u8, keyid_len: usize, data: *const u8, data_len: usize,
        salt: *const u8, salt_len: usize, output: *const u8, output_len: usize,
        buf: *mut u8, buf_len: usize,
    ) -> u64;
    pub fn phc_judge(
        text: *const u8, text_len: usize, from: usize, limit: usize, answers: *mut u8, answers_len: usize,
        result: *mut u8, result_len: usize,
    ) -> u64;
}

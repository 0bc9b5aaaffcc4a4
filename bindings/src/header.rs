//! include/platemaker.h, line by line.

#[rustfmt::skip]
extern "C" {
    pub fn pm_version() -> u32;

    pub fn pm_autocorrelation(radius: usize, psf: *const u8, psf_len: usize, out: *mut i32, out_len: usize) -> u32;

    pub fn pm_filtered_error(width: usize, height: usize, radius: usize, psf: *const u8, psf_len: usize,
                             gray: *const u8, gray_len: usize, dots: *const u8, dots_len: usize, table: *mut i32,
                             table_len: usize) -> u32;

    pub fn pm_squared_error(width: usize, height: usize, radius: usize, psf: *const u8, psf_len: usize, gray: *const u8,
                            gray_len: usize, dots: *const u8, dots_len: usize, error: *mut i64) -> u32;

    pub fn pm_tone_balance(width: usize, height: usize, gray: *const u8, gray_len: usize, dots: *const u8,
                           dots_len: usize, quotient: *mut i64, remainder: *mut usize) -> u32;

    pub fn pm_start(measures: *const usize, measures_len: usize, psf: *const u8, psf_len: usize, gray: *const u8,
                    gray_len: usize, dots: *mut u8, dots_len: usize, table: *mut i32, table_len: usize, stats: *mut i64,
                    stats_len: usize) -> u32;

    pub fn pm_try_toggle(measures: *const usize, measures_len: usize, psf: *const u8, psf_len: usize, gray: *const u8,
                         gray_len: usize, dots: *mut u8, dots_len: usize, table: *mut i32, table_len: usize,
                         stats: *mut i64, stats_len: usize, row: usize, col: usize, change: *mut i64) -> u32;

    pub fn pm_try_swap(measures: *const usize, measures_len: usize, psf: *const u8, psf_len: usize, gray: *const u8,
                       gray_len: usize, dots: *mut u8, dots_len: usize, table: *mut i32, table_len: usize,
                       stats: *mut i64, stats_len: usize, row: usize, col: usize, row2: usize, col2: usize,
                       change: *mut i64) -> u32;

    pub fn pm_toggle_scan(measures: *const usize, measures_len: usize, psf: *const u8, psf_len: usize, gray: *const u8,
                          gray_len: usize, dots: *mut u8, dots_len: usize, table: *mut i32, table_len: usize,
                          stats: *mut i64, stats_len: usize, changes: *mut u64, trials: *mut u64) -> u32;

    pub fn pm_swap_scan(measures: *const usize, measures_len: usize, psf: *const u8, psf_len: usize, gray: *const u8,
                        gray_len: usize, dots: *mut u8, dots_len: usize, table: *mut i32, table_len: usize,
                        stats: *mut i64, stats_len: usize, changes: *mut u64, trials: *mut u64) -> u32;

    pub fn pm_converge(measures: *const usize, measures_len: usize, psf: *const u8, psf_len: usize, gray: *const u8,
                       gray_len: usize, dots: *mut u8, dots_len: usize, table: *mut i32, table_len: usize,
                       stats: *mut i64, stats_len: usize, scans: *mut u64) -> u32;

    pub fn pm_read_sheet(bytes: *const u8, bytes_len: usize, psf: *mut u8, psf_len: usize, gray: *mut u8,
                         gray_len: usize, dots: *mut u8, dots_len: usize, measures: *mut usize, measures_len: usize,
                         offset: *mut usize) -> u32;

    pub fn pm_write_sheet(measures: *const usize, measures_len: usize, psf: *const u8, psf_len: usize, gray: *const u8,
                          gray_len: usize, dots: *const u8, dots_len: usize, out: *mut u8, out_len: usize,
                          length: *mut usize, offset: *mut usize) -> u32;

    pub fn pm_check_filed(bytes: *const u8, bytes_len: usize, psf: *mut u8, psf_len: usize, gray: *mut u8,
                          gray_len: usize, dots: *mut u8, dots_len: usize, table: *mut i32, table_len: usize,
                          verdict: *mut i64, verdict_len: usize, offset: *mut usize) -> u32;

    pub fn pm_read_pbm(file: *const u8, file_len: usize, dots: *mut u8, dots_len: usize, width: *mut usize,
                       height: *mut usize) -> u32;

    pub fn pm_read_pgm(file: *const u8, file_len: usize, gray: *mut u8, gray_len: usize, width: *mut usize,
                       height: *mut usize) -> u32;

    pub fn pm_write_pbm(width: usize, height: usize, dots: *const u8, dots_len: usize, out: *mut u8, out_len: usize,
                        length: *mut usize) -> u32;

    pub fn pm_write_pgm(width: usize, height: usize, gray: *const u8, gray_len: usize, out: *mut u8, out_len: usize,
                        length: *mut usize) -> u32;

    pub fn pm_count_rows(width: usize, height: usize, packed: *const u8, packed_len: usize, counts: *mut u32,
                         counts_len: usize) -> u32;

    pub fn pm_read_pfm(file: *const u8, file_len: usize, gray: *mut u8, gray_len: usize, width: *mut usize,
                       height: *mut usize, scale: *mut f32, offset: *mut usize) -> u32;
}

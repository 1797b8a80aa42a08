//! The entry points, as `include/mundrefol.h` declares them.

use crate::{Answer, Contents, Evolution, Frame, Log, Noted};

extern "C" {
    pub fn mundrefol_read(
        file: *const u8,
        file_len: usize,
        table: *mut u8,
        table_len: usize,
        words: *mut u16,
        words_len: usize,
        records: *mut Evolution,
        records_len: usize,
    ) -> Contents;
    pub fn mundrefol_evolution_holds(
        records: *const Evolution,
        records_len: usize,
        evolution: usize,
        file: *const u8,
        file_len: usize,
        inputs: usize,
        setting: usize,
    ) -> bool;
    pub fn mundrefol_mark(
        frame: Frame,
        table: *const u8,
        table_len: usize,
        ranks: *mut u16,
        ranks_len: usize,
    ) -> Answer;
    pub fn mundrefol_run_to(
        frame: Frame,
        table: *const u8,
        table_len: usize,
        ranks: *mut u16,
        ranks_len: usize,
        couple: usize,
        run: *mut u8,
        run_len: usize,
    ) -> Answer;
    pub fn mundrefol_plan(
        frame: Frame,
        table: *const u8,
        table_len: usize,
        ranks: *mut u16,
        ranks_len: usize,
        plan: *mut u8,
        plan_len: usize,
    ) -> Answer;
    pub fn mundrefol_multi_run_to(
        frame: Frame,
        table: *const u8,
        table_len: usize,
        ranks: *mut u16,
        ranks_len: usize,
        couple: usize,
        run: *mut u8,
        run_len: usize,
    ) -> Answer;
    pub fn mundrefol_multi_list(
        frame: Frame,
        table: *const u8,
        table_len: usize,
        ranks: *mut u16,
        ranks_len: usize,
        list: *mut u8,
        list_len: usize,
    ) -> Answer;
    pub fn mundrefol_shorten(
        frame: Frame,
        table: *const u8,
        table_len: usize,
        plan: *mut u8,
        plan_len: usize,
    ) -> Answer;
    pub fn mundrefol_expected(
        frame: Frame,
        table: *const u8,
        table_len: usize,
        words: *const u16,
        words_len: usize,
        run: *const u8,
        run_len: usize,
        readings: *mut u16,
        readings_len: usize,
    ) -> Answer;
    pub fn mundrefol_multi_expected(
        frame: Frame,
        table: *const u8,
        table_len: usize,
        words: *const u16,
        words_len: usize,
        run: *const u8,
        run_len: usize,
        readings: *mut u16,
        readings_len: usize,
    ) -> Answer;
    pub fn mundrefol_update(
        log: *mut Log,
        run: u16,
        change: u16,
        second: bool,
        expected: u16,
        seen: u16,
    ) -> Noted;
}

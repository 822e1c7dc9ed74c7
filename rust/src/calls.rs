//! The functions of libuisnabar.a, as include/uisnabar.h declares them, and how those over tables are called.

extern "C" {
    pub fn uisnabar_judge(
        program: *const u8,
        program_len: usize,
        memory: *const u8,
        memory_len: usize,
        pc: u64,
        fp: u64,
        exec: *const u8,
        exec_len: usize,
        ext: *const u8,
        ext_len: usize,
        answer: *mut u8,
        answer_len: usize,
    ) -> u32;
    pub fn uisnabar_judge_split(
        program: *const u8,
        program_len: usize,
        public_words: *const u8,
        public_len: usize,
        rest: *const u8,
        rest_len: usize,
        pc: u64,
        fp: u64,
        exec: *const u8,
        exec_len: usize,
        ext: *const u8,
        ext_len: usize,
        answer: *mut u8,
        answer_len: usize,
    ) -> u32;
    pub fn uisnabar_count(
        program: *const u8,
        program_len: usize,
        memory: *const u8,
        memory_len: usize,
        pc: u64,
        fp: u64,
        exec: *const u8,
        exec_len: usize,
        ext: *const u8,
        ext_len: usize,
        grid: *mut u8,
        grid_len: usize,
        answer: *mut u8,
        answer_len: usize,
    ) -> u32;
    pub fn uisnabar_ranges(
        program: *const u8,
        program_len: usize,
        memory: *const u8,
        memory_len: usize,
        pc: u64,
        fp: u64,
        exec: *const u8,
        exec_len: usize,
        ext: *const u8,
        ext_len: usize,
        finds: *mut u8,
        finds_len: usize,
        found: *mut u8,
        found_len: usize,
        answer: *mut u8,
        answer_len: usize,
    ) -> u32;
    pub fn uisnabar_report(
        grid: *const u8,
        grid_len: usize,
        text: *mut u8,
        text_len: usize,
        written: *mut u8,
        written_len: usize,
        answer: *mut u8,
        answer_len: usize,
    ) -> u32;
    pub fn uisnabar_translate(
        old: *const u8,
        old_len: usize,
        program: *mut u8,
        program_len: usize,
        answer: *mut u8,
        answer_len: usize,
    ) -> u32;
    pub fn uisnabar_list(
        program: *const u8,
        program_len: usize,
        text: *mut u8,
        text_len: usize,
        written: *mut u8,
        written_len: usize,
        answer: *mut u8,
        answer_len: usize,
    ) -> u32;
    pub fn uisnabar_read_listing(
        text: *const u8,
        text_len: usize,
        program: *mut u8,
        program_len: usize,
        written: *mut u8,
        written_len: usize,
        answer: *mut u8,
        answer_len: usize,
    ) -> u32;
    pub fn uisnabar_jump(
        state: u64,
        draws: u64,
        next: *mut u8,
        next_len: usize,
        answer: *mut u8,
        answer_len: usize,
    ) -> u32;
    pub fn uisnabar_host(
        seed: u64,
        host: u64,
        next: *mut u8,
        next_len: usize,
        answer: *mut u8,
        answer_len: usize,
    ) -> u32;
    pub fn uisnabar_label(
        text: *const u8,
        text_len: usize,
        answer: *mut u8,
        answer_len: usize,
        recipe: *mut u8,
        recipe_len: usize,
    ) -> u32;
}

/// A function of the library over a program, a memory in one buffer or in two, a start and two tables, and over buffers
/// that it writes.
macro_rules! on_tables {
    (
        $call:ident($program:ident, $($memory:ident),+; $pc:ident, $fp:ident; $exec:ident, $ext:ident),
        $($written:ident),+
    ) => {
        $call(
            $program.as_ptr(),
            $program.len(),
            $($memory.as_ptr(), $memory.len()),+,
            $pc,
            $fp,
            $exec.as_ptr(),
            $exec.len(),
            $ext.as_ptr(),
            $ext.len(),
            $($written.as_mut_ptr(), $written.len()),+
        )
    };
}
pub(crate) use on_tables;

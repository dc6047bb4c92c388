//! The C interface of the archive as `include/pickledune.h` declares it, once for all that stands
//! beside this package too.
extern "C" {
    pub fn pickledune_version() -> u32;
    pub fn pickledune_layout() -> u32;
    pub fn pickledune_read_table(
        table: *const u8,
        table_bytes: usize,
        n: *mut usize,
        m: *mut usize,
    ) -> u32;
    pub fn pickledune_write_table(
        n: usize,
        list: *const u16,
        entries: usize,
        out: *mut u8,
        out_bytes: usize,
        length: *mut usize,
    ) -> u32;
    pub fn pickledune_open(
        table: *const u8,
        table_bytes: usize,
        chain: u32,
        process: usize,
        arc: *mut usize,
    ) -> u32;
    pub fn pickledune_next(table: *const u8, table_bytes: usize, chain: u32, arc: usize) -> usize;
    pub fn pickledune_start(
        table: *const u8,
        table_bytes: usize,
        start: usize,
        edition: usize,
        area: *mut i32,
        words: usize,
    ) -> u32;
    pub fn pickledune_pick(
        area: *mut i32,
        words: usize,
        from: usize,
        to: usize,
        place: usize,
        kind: *mut u32,
        count: *mut i32,
        second: *mut i32,
    ) -> u32;
    pub fn pickledune_run_on(
        area: *mut i32,
        words: usize,
        k: u32,
        over: *mut u32,
        made: *mut u32,
    ) -> u32;
    pub fn pickledune_run_shuffled(
        area: *mut i32,
        words: usize,
        k: u32,
        seed: u32,
        over: *mut u32,
        made: *mut u32,
    ) -> u32;
    pub fn pickledune_report(
        area: *const i32,
        words: usize,
        deliveries: *mut u32,
        knot: *mut u32,
        outside: *mut i32,
        escape: *mut u32,
        returned: *mut u32,
    ) -> u32;
    pub fn pickledune_read_record(
        area: *const i32,
        words: usize,
        process: usize,
        succeeding: *mut u32,
        preceding: *mut u32,
        subordinate: *mut u32,
        cs: *mut i32,
        num: *mut u32,
        father: *mut u32,
        second: *mut i32,
    ) -> u32;
    pub fn pickledune_step(
        succeeding: *mut u32,
        preceding: *mut u32,
        subordinate: *mut u32,
        cs: *mut i32,
        num: *mut u32,
        father: *mut u32,
        second: *mut i32,
        kind: u32,
        count: i32,
        second_count: i32,
        out_degree: u32,
        in_degree: u32,
        sender: u32,
        probes: *mut u32,
        reply_to: *mut u32,
        reply_count: *mut i32,
        reply_second: *mut i32,
    ) -> u32;
}

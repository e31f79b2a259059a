//! The declarations, in the order and with the widths of `include/drawbevel.h`.

use super::{
    Answer, Ends, Headers, LoginNumbers, LoginWords, Maps, Numbers, ResponseWords, Seen,
    StatusTickets, Statuses, Tags, TaskNumbers, Tickets, Values, Wide,
};

unsafe extern "C" {
    pub fn drawbevel_core_read(
        input: *const u8,
        length: usize,
        common: *mut [u64; 8],
        own: *mut [u64; 9],
    ) -> u32;
    pub fn drawbevel_core_length(input: *const u8, length: usize) -> u64;
    pub fn drawbevel_core_write(
        out: *mut u8,
        length: usize,
        words: *const ResponseWords,
        stat_sn: u32,
        exp_cmd_sn: u32,
        max_cmd_sn: u32,
    ) -> u32;
    pub fn drawbevel_core_fresh(
        numbers: *mut Numbers,
        maps: *mut Maps,
        headers: *mut Headers,
        tickets: *mut Tickets,
        statuses: *mut Statuses,
        status_tickets: *mut StatusTickets,
        first: u32,
        stat_sn: u32,
        level: u8,
    );
    pub fn drawbevel_core_offer(
        numbers: *mut Numbers,
        maps: *mut Maps,
        headers: *mut Headers,
        tickets: *mut Tickets,
        connection: u32,
        ticket: u32,
        pdu: *const u8,
        length: usize,
    ) -> u64;
    pub fn drawbevel_core_take(
        numbers: *mut Numbers,
        maps: *mut Maps,
        headers: *const Headers,
        tickets: *const Tickets,
        out: *mut u8,
        length: usize,
        answer: *mut Answer,
    );
    pub fn drawbevel_core_open(
        numbers: *mut Numbers,
        maps: *mut Maps,
        connection: u32,
        stat_sn: u32,
    ) -> u64;
    pub fn drawbevel_core_logout(
        numbers: *mut Numbers,
        maps: *mut Maps,
        connection: u32,
        reason: u8,
        answer: *mut Answer,
    );
    pub fn drawbevel_core_acknowledge(
        numbers: *mut Numbers,
        maps: *mut Maps,
        connection: u32,
        exp_stat_sn: u32,
    ) -> u64;
    pub fn drawbevel_core_snack(
        numbers: *const Numbers,
        maps: *const Maps,
        connection: u32,
        pdu: *const u8,
        length: usize,
        answer: *mut Answer,
    );
    pub fn drawbevel_core_send(
        numbers: *mut Numbers,
        maps: *mut Maps,
        statuses: *mut Statuses,
        status_tickets: *mut StatusTickets,
        task: *const TaskNumbers,
        wide: *const Wide,
        connection: u32,
        ticket: u32,
        words: *const ResponseWords,
        out: *mut u8,
        length: usize,
    ) -> u64;
    pub fn drawbevel_core_resend(
        numbers: *const Numbers,
        maps: *const Maps,
        statuses: *const Statuses,
        status_tickets: *const StatusTickets,
        task: *const TaskNumbers,
        wide: *const Wide,
        connection: u32,
        stat_sn: u32,
        out: *mut u8,
        length: usize,
    ) -> u64;
    pub fn drawbevel_core_window(numbers: *const Numbers, maps: *const Maps, answer: *mut Answer);
    pub fn drawbevel_core_next(numbers: *const Numbers, maps: *const Maps, connection: u32) -> u64;
    pub fn drawbevel_core_holder(
        numbers: *const Numbers,
        maps: *const Maps,
        tickets: *const Tickets,
        number: u32,
        answer: *mut Answer,
    );
    pub fn drawbevel_core_task(
        task: *mut TaskNumbers,
        wide: *mut Wide,
        itt: u32,
        lun: u64,
        transfer_tag: u32,
        immediate: u32,
        max_burst_length: u32,
        max_outstanding_r2t: u16,
    ) -> u64;
    pub fn drawbevel_core_data_in(
        numbers: *const Numbers,
        maps: *const Maps,
        task: *mut TaskNumbers,
        wide: *mut Wide,
        connection: u32,
        is_final: bool,
        acknowledge: bool,
        data_segment_length: u32,
        out: *mut u8,
        length: usize,
    ) -> u64;
    pub fn drawbevel_core_r2t(
        numbers: *const Numbers,
        maps: *const Maps,
        task: *mut TaskNumbers,
        wide: *mut Wide,
        tags: *mut Tags,
        ends: *mut Ends,
        connection: u32,
        tag: u32,
        desired: u32,
        out: *mut u8,
        length: usize,
    ) -> u64;
    pub fn drawbevel_core_data_out(
        numbers: *const Numbers,
        maps: *const Maps,
        connection: u32,
        pdu: *const u8,
        length: usize,
        task: *mut TaskNumbers,
        wide: *mut Wide,
        tags: *const Tags,
        ends: *const Ends,
        answer: *mut Answer,
    );
    pub fn drawbevel_core_data_snack(
        numbers: *const Numbers,
        maps: *const Maps,
        connection: u32,
        pdu: *const u8,
        length: usize,
        task: *mut TaskNumbers,
        wide: *mut Wide,
        offset: u32,
        answer: *mut Answer,
    );
    pub fn drawbevel_core_login_fresh(
        numbers: *mut LoginNumbers,
        values: *mut Values,
        seen: *mut Seen,
    );
    pub fn drawbevel_core_login(
        numbers: *mut LoginNumbers,
        values: *mut Values,
        seen: *mut Seen,
        pdu: *const u8,
        length: usize,
        live: u16,
        new: u16,
        target_name: *const u8,
        name_length: usize,
        gather: *mut u8,
        gather_lent: usize,
        text: *mut u8,
        text_lent: usize,
        answer: *mut LoginWords,
    );
}

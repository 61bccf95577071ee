//! The exported functions of `libagreement.a`, as include/agreement.h declares them.

extern "C" {
    /// 1,000,000 * major + 1,000 * minor + patch.
    pub fn agreement_version() -> u64;

    /// Writes {0, n, f, 0} and eight rows, or {2, whose, number, place} for a
    /// refusal and eight zeros.
    pub fn agreement_read_card(card: *const u8, length: usize, answer: *mut [u64; 12]);

    /// Writes {0, bytes, 0, 0} and the clean card to the first lent bytes, or {2, whose,
    /// number, place} for a refusal and no lent byte.
    pub fn agreement_print_card(
        card: *const u8,
        card_length: usize,
        lent: *mut u8,
        lent_length: usize,
        answer: *mut [u64; 4],
    );

    /// Writes {0, 0, 0, 0, 0} for no bad split, {1, F, L, C, R} for the first
    /// one, or {2, whose, number, place, 0} for a refusal.
    pub fn agreement_split_test(card: *const u8, length: usize, answer: *mut [u64; 5]);

    /// Writes {0, 1 if the older rule holds or 0, n, least number}, or {2, whose, number,
    /// place} for a refusal.
    pub fn agreement_quick_test(card: *const u8, length: usize, answer: *mut [u64; 4]);

    /// Writes {0, blocks, carriages, 0}, or {2, whose, number, place} for a refusal.
    pub fn agreement_check_plan(
        card: *const u8,
        card_length: usize,
        plan: *const u8,
        plan_length: usize,
        answer: *mut [u64; 4],
    );

    /// Writes {0, bytes, 0, 0, 0, 0, 0, 0} and the plan to the first lent bytes, {2, whose,
    /// number, 0, F, L, C, R} for a bad split, or {2, whose, number, place, 0, 0, 0, 0} for
    /// another refusal; where it refuses, no lent byte.
    pub fn agreement_write_plan(
        card: *const u8,
        card_length: usize,
        lent: *mut u8,
        lent_length: usize,
        answer: *mut [u64; 8],
    );

    /// Writes {0, 1, routes, 0} and the routes to the first lent bytes; or, and no lent byte,
    /// {0, 0, servers, their number} where too few routes are separate, or {2, whose, number,
    /// place} for a refusal.
    pub fn agreement_separate_routes(
        card: *const u8,
        card_length: usize,
        faults: u8,
        sources: u8,
        receiver: u8,
        lent: *mut u8,
        lent_length: usize,
        answer: *mut [u64; 4],
    );

    /// Writes {0, eight counts}, or {2, whose, number, place, 0, 0, 0, 0, 0} for a
    /// refusal.
    pub fn agreement_load(
        card: *const u8,
        card_length: usize,
        plan: *const u8,
        plan_length: usize,
        answer: *mut [u64; 9],
    );

    /// Writes {0, blocks, carriages, 0} and the first n lent bytes, or {2, whose,
    /// number, place} for a refusal and no lent byte.
    pub fn agreement_run(
        card: *const u8,
        card_length: usize,
        plan: *const u8,
        plan_length: usize,
        inputs: *const u8,
        inputs_length: usize,
        faulty: u8,
        table: *const u8,
        table_length: usize,
        lent: *mut u8,
        lent_length: usize,
        answer: *mut [u64; 4],
    );

    /// Writes {0, block, kind, v, t, open}, or {2, whose, number, place, 0, 0} for a
    /// refusal.
    pub fn agreement_start(
        card: *const u8,
        card_length: usize,
        plan: *const u8,
        plan_length: usize,
        server: u8,
        input: u8,
        answer: *mut [u64; 6],
    );

    /// Writes {0, block, kind, v, t, open, values} and the values to the first lent bytes,
    /// or {2, whose, number, place, 0, 0, 0} for a refusal and no lent byte.
    pub fn agreement_ask(
        card: *const u8,
        card_length: usize,
        plan: *const u8,
        plan_length: usize,
        server: u8,
        state: *const [u64; 5],
        lent: *mut u8,
        lent_length: usize,
        answer: *mut [u64; 7],
    );

    /// Writes {0, block, kind, v, t, open}, or {2, whose, number, place, 0, 0} for a
    /// refusal.
    pub fn agreement_commit(
        card: *const u8,
        card_length: usize,
        plan: *const u8,
        plan_length: usize,
        server: u8,
        state: *const [u64; 5],
        arrived: *const u8,
        arrived_length: usize,
        answer: *mut [u64; 6],
    );
}

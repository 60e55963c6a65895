//! The entries as the archive has them, and calls of them over slices.

/// What an entry answers. A field that an entry does not mention is 0; so is every field but
/// `number` and `place` where the call is refused.
#[repr(C)]
#[derive(Clone, Copy, Debug, Default, PartialEq, Eq)]
pub struct Answer {
    /// The refusal's number, 0 where the call is not refused.
    pub number: u16,
    /// The refusal's place.
    pub place: u16,
    /// How many entries were written.
    pub count: u16,
    /// A symbol, the steps done of a plan, or 1 for a yes and 0 for a no.
    pub value: u16,
    /// The cost of a matrix.
    pub cost: u16,
    /// The bound on the score.
    pub bound: u16,
}

/// What the counter's entries answer. Where the call is refused, every field but `number` and `place`
/// is 0.
#[repr(C)]
#[derive(Clone, Copy, Debug, Default, PartialEq, Eq)]
pub struct Judgement {
    /// The refusal's place, which in a long list does not fit sixteen bits.
    pub place: u64,
    /// The refusal's number, 0 where the call is not refused.
    pub number: u16,
    /// Of a call that judges, 1 where the counter opens, 2 where it asks, 3 where it has nothing. Of
    /// one that opens, the list that holds the row: 1 for the first, 2 for the second; 0 where none
    /// is opened.
    pub value: u16,
    /// Of a call that opens, how many symbols of that list are the row.
    pub count: u16,
}

/// Declares each entry, and its call: a slice is a pointer and its length.
///
/// The archive asks of a caller that each pointer and its length are memory that is there, aligned
/// and not changed by others during the call, and that lent output overlaps no input and no other
/// output. Here pointer and length come from one slice that is borrowed for the call, and `&mut` is
/// borrowed alone. Everything else the library checks: any number, length and content may come in,
/// and every call returns.
macro_rules! entries {
    ($(
        $(#[$about:meta])*
        $call:ident = $entry:ident(
            $($name:ident: $($number:ident)? $(&[$input:ident])? $(&mut [$out:ident])?),*
        ) -> $answer:ident;
    )*) => {
        extern "C" {
            $(fn $entry($(
                $name: $($number)? $(*const $input, _: usize)? $(*mut $out, _: usize)?
            ),*) -> $answer;)*
        }

        $($(#[$about])*
        pub fn $call($($name: $($number)? $(&[$input])? $(&mut [$out])?),*) -> $answer {
            unsafe {
                $entry($(
                    $($number::from($name))?
                    $(<[$input]>::as_ptr($name), $name.len())?
                    $(<[$out]>::as_mut_ptr($name), $name.len())?
                ),*)
            }
        })*
    };
}

entries! {
    /// `value`: a + b.
    sum = kv_sum(a: u8, b: u8) -> Answer;

    /// `value`: a times b.
    product = kv_product(a: u8, b: u8) -> Answer;

    /// `value`: the symbol whose product with a is 1.
    inverse = kv_inverse(a: u8) -> Answer;

    /// `count`: n. `out` begins with the codeword; it has room for n.
    encode = kv_encode(n: usize, k: usize, message: &[u8], out: &mut [u8]) -> Answer;

    /// `count`: 16n. `out` begins with the matrix; it has room for 16n.
    multiplicities = kv_multiplicities(
        n: usize, level: usize, reliabilities: &[u16], out: &mut [u8]
    ) -> Answer;

    /// `count`: 16n, and `value`: the steps done. `out` begins with the plan; it has room for 16n.
    plan = kv_plan(n: usize, steps: usize, reliabilities: &[u16], out: &mut [u8]) -> Answer;

    /// `value`: the steps done, where the plan is what [`plan`] writes.
    check_plan = kv_check_plan(
        n: usize, steps: usize, reliabilities: &[u16], plan: &[u8]
    ) -> Answer;

    /// `cost` and `bound` of the matrix.
    cost_and_bound = kv_cost_and_bound(n: usize, k: usize, matrix: &[u8]) -> Answer;

    /// `bound`, and `count` of the coefficients. `out` begins with these; it has room for
    /// [`COEFFICIENTS`](crate::COEFFICIENTS).
    interpolate = kv_interpolate(
        n: usize, k: usize, limit: usize, matrix: &[u8], out: &mut [u8]
    ) -> Answer;

    /// `value`: 1 where the polynomial is not 0 and passes as the matrix says, 0 where it does not.
    check_proposal = kv_check_proposal(
        n: usize, k: usize, degree: usize, matrix: &[u8], coefficients: &[u8]
    ) -> Answer;

    /// `count` of the messages. `out` begins with these, one after the other; it has room for k
    /// times the whole part of degree / (k-1).
    roots = kv_roots(degree: usize, k: usize, coefficients: &[u8], out: &mut [u8]) -> Answer;

    /// `count` of the rows. `rows` begins with their messages, one after the other, and `scores`
    /// with their scores; they have room for k times [`ROWS`](crate::ROWS) and for that many.
    list_of_multiplicities = kv_list_of_multiplicities(
        n: usize, k: usize, limit: usize, matrix: &[u8], rows: &mut [u8], scores: &mut [u16]
    ) -> Answer;

    /// As [`list_of_multiplicities`] of the matrix that the reliabilities have at this level.
    list_of_reliabilities = kv_list_of_reliabilities(
        n: usize, k: usize, level: usize, limit: usize, reliabilities: &[u16],
        rows: &mut [u8], scores: &mut [u16]
    ) -> Answer;

    /// As [`list_of_multiplicities`] of the plan, where it is what [`plan`] writes.
    list_of_plan = kv_list_of_plan(
        n: usize, k: usize, limit: usize, steps: usize, reliabilities: &[u16], plan: &[u8],
        rows: &mut [u8], scores: &mut [u16]
    ) -> Answer;

    /// As [`list_of_multiplicities`] of the matrix, where [`check_proposal`] answers 1.
    list_of_proposal = kv_list_of_proposal(
        n: usize, k: usize, limit: usize, degree: usize, matrix: &[u8], coefficients: &[u8],
        rows: &mut [u8], scores: &mut [u16]
    ) -> Answer;

    /// `cost` 0. `totals` and `entries` are all zeros, whatever they were; they are
    /// [`POSITIONS`](crate::POSITIONS) and [`ENTRIES`](crate::ENTRIES).
    matrix_fresh = kv_matrix_fresh(n: usize, totals: &mut [u16], entries: &mut [u8]) -> Answer;

    /// `cost` of the matrix. `entries` begins with it and is 0 from there on, and `totals` are
    /// theirs, whatever both were; they are [`POSITIONS`](crate::POSITIONS) and
    /// [`ENTRIES`](crate::ENTRIES).
    matrix_of_bytes = kv_matrix_of_bytes(
        n: usize, matrix: &[u8], totals: &mut [u16], entries: &mut [u8]
    ) -> Answer;

    matrix_set_entry = kv_matrix_set_entry(
        n: usize, cost: usize, totals: &mut [u16], entries: &mut [u8],
        position: usize, symbol: usize, entry: u8
    ) -> Answer;

    matrix_clear_column = kv_matrix_clear_column(
        n: usize, cost: usize, totals: &mut [u16], entries: &mut [u8], position: usize
    ) -> Answer;

    matrix_add = kv_matrix_add(
        n: usize, cost: usize, totals: &mut [u16], entries: &mut [u8],
        other_n: usize, other_cost: usize, other_totals: &[u16], other_entries: &[u8]
    ) -> Answer;

    matrix_cost_and_bound = kv_matrix_cost_and_bound(
        n: usize, cost: usize, totals: &[u16], entries: &[u8], k: usize
    ) -> Answer;

    matrix_interpolate = kv_matrix_interpolate(
        n: usize, cost: usize, totals: &[u16], entries: &[u8], k: usize, limit: usize,
        out: &mut [u8]
    ) -> Answer;

    matrix_list = kv_matrix_list(
        n: usize, cost: usize, totals: &[u16], entries: &[u8], k: usize, limit: usize,
        rows: &mut [u8], scores: &mut [u16]
    ) -> Answer;

    matrix_check_plan = kv_matrix_check_plan(
        n: usize, cost: usize, totals: &[u16], entries: &[u8], steps: usize, reliabilities: &[u16]
    ) -> Answer;

    matrix_list_of_plan = kv_matrix_list_of_plan(
        n: usize, cost: usize, totals: &[u16], entries: &[u8], k: usize, limit: usize,
        steps: usize, reliabilities: &[u16], rows: &mut [u8], scores: &mut [u16]
    ) -> Answer;

    matrix_check_proposal = kv_matrix_check_proposal(
        n: usize, cost: usize, totals: &[u16], entries: &[u8], k: usize, degree: usize,
        coefficients: &[u8]
    ) -> Answer;

    matrix_list_of_proposal = kv_matrix_list_of_proposal(
        n: usize, cost: usize, totals: &[u16], entries: &[u8], k: usize, limit: usize,
        degree: usize, coefficients: &[u8], rows: &mut [u8], scores: &mut [u16]
    ) -> Answer;

    /// `value` of the verdict on one list.
    judge = kv_judge(k: usize, rows: &[u8], scores: &[u16], lead: usize) -> Judgement;

    /// `value` 1 and `count` k where [`judge`] answers that the counter opens: `rows` begins with
    /// the row.
    open = kv_open(k: usize, rows: &[u8], scores: &[u16], lead: usize) -> Judgement;

    judge_both = kv_judge_both(
        n: usize, k: usize, level: usize, rows: &[u8], scores: &[u16],
        other_n: usize, other_k: usize, other_level: usize, others: &[u8], other_scores: &[u16],
        lead: usize
    ) -> Judgement;

    open_both = kv_open_both(
        n: usize, k: usize, level: usize, rows: &[u8], scores: &[u16],
        other_n: usize, other_k: usize, other_level: usize, others: &[u8], other_scores: &[u16],
        lead: usize
    ) -> Judgement;
}

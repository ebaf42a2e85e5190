//! The proved kernel model for a host in Rust: link `libhost.a`, for x86-64 Linux. It is `nil.h` with references in place of
//! pointers: what the C caller has to promise of its pointers, Rust's own rules see to, so that every function here is safe.
//!
//! The model keeps nothing between two calls, and every function answers for any values. A refusal is a number, as in `nil.h`.
//! It needs nothing but `core`, from Rust 1.63 on, in any edition from 2018 on.
#![allow(dead_code)] // a host uses what it needs of it

/// How many rows each table has; a plant uses the first of them, as many as its sizes say.
pub const THREADS: usize = 16;
pub const SEMAPHORES: usize = 16;
pub const QUEUES: usize = 8;
pub const REFERENCES: usize = 8;
pub const MAILBOXES: usize = 4;
/// Of one mailbox.
pub const SLOTS: usize = 16;
pub const POOLS: usize = 4;
/// Of one pool.
pub const OBJECTS: usize = 32;
/// Where threads queue: semaphores 0, pools 16, queues 20, mailboxes' writers 28, their readers 32.
pub const PLACES: usize = 36;

/// Byte pipes, which stand beside the tables: how many, and the bytes of a buffer, 1 at least.
pub const PIPES: usize = 4;
pub const PIPE_BYTES: usize = 256;

/// The number of this file's layout, as `NIL_LAYOUT` of the header: it rises with every change of a struct.
pub const LAYOUT: u32 = 3;

/// Bytes of stack that are enough for any call, whatever the tables hold.
pub const STACK: usize = 81920;

/// Idle as the running thread, an interrupt as the caller, nobody in an empty reference.
pub const NOBODY: u8 = 255;

/// `MSG_OK`, `MSG_TIMEOUT` and `MSG_RESET` of the manual.
pub const OK: i32 = 0;
pub const TIMEOUT: i32 = -1;
pub const RESET: i32 = -2;

/// The answer of a [`kind::SIGNAL`] at counter 2147483647, which stays there. It is no error: nothing was lost but the count.
pub const NOT_COUNTED: i32 = 1;

/// Timeouts, in ticks. The manual's `TIME_IMMEDIATE` is -1 and its `TIME_INFINITE` is 0; here it is the other way round.
/// Compiled firmware passes the manual's numbers: the host translates them, by [`timeout`].
pub const IMMEDIATE: u32 = 0;
pub const INFINITE: u32 = 4294967295;
pub const LONGEST: u32 = 4294967294;

/// Ticks a second where the firmware names none: the new boxes'. 1 to 1,000,000 are accepted. Firmware that was compiled for
/// another frequency counts its timeouts in those ticks: its host gives that one.
pub const FREQUENCY: u32 = 10000;

/// Why a thread was last made ready, in its `cause`. A pool's free and add are signals too. A thread that was woken by another's
/// call which went on only then, as a post does that had waited for room, has that call's cause, whatever the step's kind was.
pub const CAUSE_NONE: u32 = 0;
pub const CAUSE_SIGNAL: u32 = 1;
pub const CAUSE_RELEASE: u32 = 2;
pub const CAUSE_RESUME: u32 = 3;
pub const CAUSE_EVENT: u32 = 4;
pub const CAUSE_POST: u32 = 5;
pub const CAUSE_FETCH: u32 = 6;
pub const CAUSE_RESET: u32 = 7;
pub const CAUSE_TICK: u32 = 8;

/// The step number of the tables stays here.
pub const LAST_STEP: u32 = 4294967295;

/// What a [`Change`] names, in the order in which a list has it. docs/COMPARE.md says where each field lies and when it counts.
pub const OBJECT_THREAD: u32 = 0;
pub const OBJECT_REFERENCE: u32 = 1;
pub const OBJECT_QUEUE: u32 = 2;
pub const OBJECT_SEMAPHORE: u32 = 3;
pub const OBJECT_MAILBOX: u32 = 4;
pub const OBJECT_POOL: u32 = 5;
pub const OBJECT_CLOCK: u32 = 6;
pub const OBJECT_STEPS: u32 = 7;

/// The fields of each object. Slots, places of a free list and marks are numbered on from the first one's.
pub const FIELD_THREAD_STATE: u32 = 0;
pub const FIELD_THREAD_PLACE: u32 = 1;
pub const FIELD_THREAD_REMAINING: u32 = 2;
pub const FIELD_THREAD_PENDING: u32 = 3;
pub const FIELD_THREAD_AWAITED: u32 = 4;
pub const FIELD_THREAD_MESSAGE: u32 = 5;
pub const FIELD_THREAD_CALL_KIND: u32 = 6;
pub const FIELD_THREAD_CALL_OBJECT: u32 = 7;
pub const FIELD_THREAD_CALL_OPERAND: u32 = 8;
pub const FIELD_THREAD_CALL_TIMEOUT: u32 = 9;
pub const FIELD_THREAD_ANSWER_MESSAGE: u32 = 10;
pub const FIELD_THREAD_ANSWER_DATUM: u32 = 11;
pub const FIELD_THREAD_CAUSE: u32 = 12;
pub const FIELD_THREAD_STEP: u32 = 13;
pub const FIELD_REFERENCE_HOLDER: u32 = 0;
pub const FIELD_QUEUE_COUNTER: u32 = 0;
pub const FIELD_SEMAPHORE_COUNTER: u32 = 0;
pub const FIELD_MAILBOX_WRITERS: u32 = 0;
pub const FIELD_MAILBOX_READERS: u32 = 1;
pub const FIELD_MAILBOX_READ: u32 = 2;
pub const FIELD_MAILBOX_WRITE: u32 = 3;
pub const FIELD_MAILBOX_COUNT: u32 = 4;
pub const FIELD_MAILBOX_RESET: u32 = 5;
pub const FIELD_MAILBOX_MESSAGES: u32 = 6;
pub const FIELD_POOL_COUNTER: u32 = 0;
pub const FIELD_POOL_LENGTH: u32 = 1;
pub const FIELD_POOL_LIST: u32 = 2;
pub const FIELD_POOL_MARKS: u32 = 34;
pub const FIELD_CLOCK_TIME: u32 = 0;
pub const FIELD_CLOCK_FREQUENCY: u32 = 1;
pub const FIELD_STEPS_NUMBER: u32 = 0;

/// All fields that there are: a list of as many entries always has room.
pub const FIELDS: usize = 611;

/// Bytes of saved tables, with their clock.
pub const SAVED: usize = 1588;

/// The numbers of a [`Change`], as it crosses the boundary.
const CHANGE_NUMBERS: usize = 5;

/// The kinds of step. `nil.h` says what each makes of its fields.
pub mod kind {
    pub const TICK: u8 = 1;
    pub const SEMAPHORE_WAIT: u8 = 2;
    pub const SIGNAL: u8 = 3;
    pub const SEMAPHORE_RESET: u8 = 4;
    pub const BINARY_SIGNAL: u8 = 5;
    pub const QUEUE_WAIT: u8 = 6;
    pub const RELEASE_FIRST: u8 = 7;
    pub const RELEASE_ALL: u8 = 8;
    pub const SUSPEND: u8 = 9;
    pub const RESUME: u8 = 10;
    pub const SLEEP_FOR: u8 = 11;
    pub const SLEEP_UNTIL: u8 = 12;
    pub const EVENT_SIGNAL: u8 = 13;
    pub const EVENT_WAIT: u8 = 14;
    pub const POST: u8 = 15;
    pub const POST_AHEAD: u8 = 16;
    pub const FETCH: u8 = 17;
    pub const MAILBOX_RESET: u8 = 18;
    pub const MAILBOX_RESUME: u8 = 19;
    pub const ALLOC: u8 = 20;
    pub const FREE: u8 = 21;
    pub const ADD: u8 = 22;
}

/// The numbers of refusals; 0 is none.
pub mod code {
    pub const ACCEPTED: u8 = 0;
    pub const BROKEN_TABLES: u8 = 1;
    pub const BAD_KIND: u8 = 2;
    pub const BAD_CALLER: u8 = 3;
    pub const BAD_CONTEXT: u8 = 4;
    pub const BAD_OBJECT: u8 = 5;
    pub const BAD_VALUE: u8 = 6;
    pub const BAD_MOMENT: u8 = 7;
    pub const BAD_VERSION: u8 = 11;
    pub const CUT_SHORT: u8 = 12;
    pub const BAD_LENGTH: u8 = 13;
    pub const BAD_SIZE: u8 = 14;
    pub const TOO_LONG: u8 = 15;
    pub const NO_SPACE: u8 = 16;
}

/// A thread's states.
pub mod state {
    pub const READY: u16 = 0;
    pub const SLEEPING: u16 = 1;
    pub const SUSPENDED: u16 = 2;
    pub const QUEUED: u16 = 3;
    pub const AWAITING: u16 = 4;
}

/// An unfinished call; all 0 without one. The timeout is the full one.
#[repr(C)]
#[derive(Clone, Copy, Debug, Default, PartialEq, Eq)]
pub struct Call {
    pub kind: u16,
    pub object: u16,
    pub operand: u32,
    pub timeout: u32,
}

/// What a call answered.
#[repr(C)]
#[derive(Clone, Copy, Debug, Default, PartialEq, Eq)]
pub struct Answer {
    pub message: i32,
    pub datum: u32,
}

/// `place` is a counter's for a queued thread, a reference for a suspended one, else 0. `cause` says why the thread was last made
/// ready, `step` is the number of that step, 0 before any.
#[repr(C)]
#[derive(Clone, Copy, Debug, Default, PartialEq, Eq)]
pub struct Thread {
    pub state: u16,
    pub place: u16,
    pub remaining: u32,
    pub pending: u32,
    pub awaited: u32,
    pub message: i32,
    pub call: Call,
    pub answer: Answer,
    pub cause: u32,
    pub step: u32,
}

/// Who is ready and who waits at each place: bit i of a word stands for thread i. `unused` fills the struct; it may have any
/// value, and keeps it.
#[repr(C)]
#[derive(Clone, Copy, Debug, PartialEq, Eq)]
pub struct Words {
    pub ready: u16,
    pub waiting: [u16; PLACES],
    pub unused: u16,
}

/// Any value of `reset` but 0 is the reset state.
#[repr(C)]
#[derive(Clone, Copy, Debug, Default, PartialEq, Eq)]
pub struct Mailbox {
    pub read: u16,
    pub write: u16,
    pub count: u16,
    pub reset: u16,
    pub messages: [u32; SLOTS],
}

/// The last used place of the list is its top. An object is absent (0), free (1) or out (2).
#[repr(C)]
#[derive(Clone, Copy, Debug, Default, PartialEq, Eq)]
pub struct Pool {
    pub length: u16,
    pub list: [u8; OBJECTS],
    pub marks: [u8; OBJECTS],
}

/// How many threads and objects a plant has. Thread 0 is the highest in priority.
#[repr(C)]
#[derive(Clone, Copy, Debug, Default, PartialEq, Eq)]
pub struct Sizes {
    pub threads: u16,
    pub semaphores: u16,
    pub queues: u16,
    pub references: u16,
    pub mailboxes: u16,
    pub pools: u16,
    pub slots: [u16; MAILBOXES],
}

/// `steps` is the number of steps that were accepted since fresh tables; it stays at [`LAST_STEP`].
#[repr(C)]
#[derive(Clone, Copy, Debug, PartialEq, Eq)]
pub struct Tables {
    pub threads: [Thread; THREADS],
    pub counters: [i32; PLACES],
    pub references: [u8; REFERENCES],
    pub words: Words,
    pub steps: u32,
    pub mailboxes: [Mailbox; MAILBOXES],
    pub pools: [Pool; POOLS],
    pub sizes: Sizes,
}

#[repr(C)]
#[derive(Clone, Copy, Debug, Default, PartialEq, Eq)]
pub struct Clock {
    pub time: u32,
    pub frequency: u32,
}

/// Where the bytes of a pipe stand in its buffer, which the host keeps beside it and lends anew at each call, always with the
/// same length: the place of the first byte in it, the place that is written next, and how many are in it. Any value of `reset`
/// but 0 is the reset state.
#[repr(C)]
#[derive(Clone, Copy, Debug, Default, PartialEq, Eq)]
pub struct Pipe {
    pub read: u16,
    pub write: u16,
    pub count: u16,
    pub reset: u16,
}

/// `number` is how many of them there are, 0 to 4.
#[repr(C)]
#[derive(Clone, Copy, Debug, Default, PartialEq, Eq)]
pub struct Pipes {
    pub pipes: [Pipe; PIPES],
    pub number: u16,
}

/// What became of a write to a pipe, or of a read.
#[derive(Clone, Copy, Debug, PartialEq, Eq)]
pub enum Transfer {
    /// The number of bytes.
    Moved(usize),
    /// The pipe is in reset state, and nothing was moved.
    Reset,
}

/// One call of a thread or an interrupt, or one tick. `unused` may have any value.
#[repr(C)]
#[derive(Clone, Copy, Debug, Default, PartialEq, Eq)]
pub struct Request {
    pub kind: u8,
    pub caller: u8,
    pub object: u8,
    pub unused: u8,
    pub a: u32,
    pub timeout: u32,
}

/// A step's result. The masks have bit i for thread i; a refusal has its code, the running thread, and 0 in all else.
#[repr(C)]
#[derive(Clone, Copy, Debug, Default, PartialEq, Eq)]
pub struct Outcome {
    pub code: u16,
    pub running: u16,
    pub woken: u16,
    pub finished: u16,
    pub message: i32,
    pub datum: u32,
}

/// A field that differs: whose it is, and its value in the first tables and in the second. Signed values stand as their 32 bits.
#[repr(C)]
#[derive(Clone, Copy, Debug, Default, PartialEq, Eq)]
pub struct Change {
    pub object: u32,
    pub number: u32,
    pub field: u32,
    pub old: u32,
    pub new: u32,
}

/// What stands at a place of a trace.
#[derive(Clone, Copy, Debug, PartialEq, Eq)]
pub enum Found {
    Sizes(Sizes),
    Step(Request),
    End,
    /// The refusal's number.
    Refused(u8),
}

/// A read: what was found, the record's number, and the place after it, which is the same place if no record was read.
#[derive(Clone, Copy, Debug, PartialEq, Eq)]
pub struct Read {
    pub found: Found,
    pub number: usize,
    pub next: usize,
}

/// A read as it crosses the boundary.
#[repr(C)]
#[derive(Clone, Copy, Default)]
struct RawRead {
    next: usize,
    number: usize,
    step: Request,
    sizes: Sizes,
    found: u32,
    code: u32,
}

// From edition 2024 on the block has to be marked `unsafe`, which compilers before 1.82 do not take. An `expr` matches `const {}`
// from edition 2024 on, and that chooses.
macro_rules! declare {
    ($edition:expr; $($functions:tt)*) => { unsafe extern "C" { $($functions)* } };
    (const {}; $($functions:tt)*) => { extern "C" { $($functions)* } };
}

declare! {
    const {};

    fn nil_fresh(tables: *mut Tables, clock: *mut Clock, sizes: *const Sizes, frequency: u32)
        -> u8;
    fn nil_step(
        tables: *mut Tables,
        clock: *mut Clock,
        request: *const Request,
        result: *mut Outcome,
    );
    fn nil_read(trace: *const u8, length: usize, at: usize, result: *mut RawRead);
    fn nil_write_sizes(buffer: *mut u8, length: usize, sizes: *const Sizes, next: *mut usize)
        -> u8;
    fn nil_write_step(
        buffer: *mut u8,
        length: usize,
        at: usize,
        request: *const Request,
        next: *mut usize,
    ) -> u8;
    fn nil_layout() -> u32;
    fn nil_broken(tables: *const Tables, clock: *const Clock) -> u32;
    fn nil_ready_count(tables: *const Tables) -> u32;
    fn nil_first_ready(tables: *const Tables) -> u32;
    fn nil_waiting(tables: *const Tables, place: u32) -> u16;
    fn nil_time_add(time: u32, interval: u32) -> u32;
    fn nil_time_diff(start: u32, end: u32) -> u32;
    fn nil_time_in_range(time: u32, start: u32, end: u32) -> u8;
    fn nil_s2i(seconds: u32, frequency: u32, ticks: *mut u32) -> u8;
    fn nil_ms2i(milliseconds: u32, frequency: u32, ticks: *mut u32) -> u8;
    fn nil_us2i(microseconds: u32, frequency: u32, ticks: *mut u32) -> u8;
    fn nil_i2s(ticks: u32, frequency: u32, seconds: *mut u64) -> u8;
    fn nil_i2ms(ticks: u32, frequency: u32, milliseconds: *mut u64) -> u8;
    fn nil_i2us(ticks: u32, frequency: u32, microseconds: *mut u64) -> u8;
    fn nil_pipe_fresh(pipes: *mut Pipes, number: u32) -> u8;
    fn nil_pipe_write(
        pipes: *mut Pipes,
        pipe: u32,
        buffer: *mut u8,
        length: usize,
        offered: *const u8,
        offered_length: usize,
        moved: *mut i32,
    ) -> u8;
    fn nil_pipe_read(
        pipes: *mut Pipes,
        pipe: u32,
        buffer: *const u8,
        length: usize,
        target: *mut u8,
        target_length: usize,
        moved: *mut i32,
    ) -> u8;
    fn nil_pipe_reset(pipes: *mut Pipes, pipe: u32, length: usize) -> u8;
    fn nil_pipe_resume(pipes: *mut Pipes, pipe: u32, length: usize) -> u8;
    fn nil_compare_bytes(
        first: *const Tables,
        first_length: usize,
        first_clock: *const Clock,
        first_clock_length: usize,
        second: *const Tables,
        second_length: usize,
        second_clock: *const Clock,
        second_clock_length: usize,
        list: *mut Change,
        room: usize,
        entries: *mut usize,
    ) -> u8;
    fn nil_apply_bytes(
        tables: *mut Tables,
        tables_length: usize,
        clock: *mut Clock,
        clock_length: usize,
        list: *const Change,
        numbers: usize,
    ) -> usize;
    fn nil_save_bytes(
        tables: *const Tables,
        tables_length: usize,
        clock: *const Clock,
        clock_length: usize,
        file: *mut u8,
        room: usize,
    ) -> u8;
    fn nil_load_bytes(
        file: *const u8,
        length: usize,
        tables: *mut Tables,
        tables_length: usize,
        clock: *mut Clock,
        clock_length: usize,
    ) -> u8;
}

// Tables go over as the bytes that they are, and so they are saved: numbers with the lowest byte first.
#[cfg(not(target_endian = "little"))]
compile_error!("nil.rs is for machines that store the lowest byte of a number first");

const TABLES_BYTES: usize = core::mem::size_of::<Tables>();
const CLOCK_BYTES: usize = core::mem::size_of::<Clock>();

impl Tables {
    /// Tables of no sizes: a place for fresh ones. A step on them is refused with 1.
    pub const NONE: Tables = Tables {
        threads: [Thread {
            state: 0,
            place: 0,
            remaining: 0,
            pending: 0,
            awaited: 0,
            message: 0,
            call: Call {
                kind: 0,
                object: 0,
                operand: 0,
                timeout: 0,
            },
            answer: Answer {
                message: 0,
                datum: 0,
            },
            cause: 0,
            step: 0,
        }; THREADS],
        counters: [0; PLACES],
        references: [NOBODY; REFERENCES],
        words: Words {
            ready: 0,
            waiting: [0; PLACES],
            unused: 0,
        },
        steps: 0,
        mailboxes: [Mailbox {
            read: 0,
            write: 0,
            count: 0,
            reset: 0,
            messages: [0; SLOTS],
        }; MAILBOXES],
        pools: [Pool {
            length: 0,
            list: [0; OBJECTS],
            marks: [0; OBJECTS],
        }; POOLS],
        sizes: Sizes {
            threads: 0,
            semaphores: 0,
            queues: 0,
            references: 0,
            mailboxes: 0,
            pools: 0,
            slots: [0; MAILBOXES],
        },
    };
}

fn accepted<T>(code: u8, value: T) -> Result<T, u8> {
    if code == code::ACCEPTED {
        Ok(value)
    } else {
        Err(code)
    }
}

/// Sets up fresh tables and a fresh clock; or refuses with 14 for a size, then 6 for the frequency, and writes nothing.
pub fn fresh(
    tables: &mut Tables,
    clock: &mut Clock,
    sizes: &Sizes,
    frequency: u32,
) -> Result<(), u8> {
    // SAFETY: the references are valid and aligned, and no two of them overlap.
    let code = unsafe { nil_fresh(tables, clock, sizes, frequency) };
    accepted(code, ())
}

/// Makes one step. A refused one leaves every byte of the tables and the clock.
pub fn step(tables: &mut Tables, clock: &mut Clock, request: &Request) -> Outcome {
    let mut result = Outcome::default();
    // SAFETY: as in `fresh`; the result is a local of its own.
    unsafe { nil_step(tables, clock, request, &mut result) };
    result
}

/// A rule of "tables that hang together" that is broken, by its number in docs/RULES.md, and the row that it concerns.
#[derive(Clone, Copy, Debug, PartialEq, Eq)]
pub struct Broken {
    pub rule: u8,
    pub row: u8,
}

/// Which rule the tables break first, for a step that was refused with 1.
pub fn broken(tables: &Tables, clock: &Clock) -> Option<Broken> {
    // SAFETY: the references are valid and aligned.
    match unsafe { nil_broken(tables, clock) } {
        0 => None,
        number => Some(Broken {
            rule: (number / 256) as u8,
            row: (number % 256) as u8,
        }),
    }
}

/// For a screen: how many threads are ready. This and the two below read the words alone.
pub fn ready_count(tables: &Tables) -> u32 {
    // SAFETY: the reference is valid and aligned, here and below.
    unsafe { nil_ready_count(tables) }
}

/// The first ready thread, if there is one.
pub fn first_ready(tables: &Tables) -> Option<usize> {
    // SAFETY: as in `ready_count`.
    match unsafe { nil_first_ready(tables) } {
        255 => None,
        thread => Some(thread as usize),
    }
}

/// Who waits at a place, as a word with bit i for thread i; 0 for a place that there is not.
pub fn waiting(tables: &Tables, place: u32) -> u16 {
    // SAFETY: as in `ready_count`.
    unsafe { nil_waiting(tables, place) }
}

/// Whether archive and wrapper belong together: a host asks when it starts.
pub fn layout_fits() -> bool {
    // SAFETY: it takes nothing and changes nothing.
    unsafe { nil_layout() == LAYOUT }
}

/// Time plus interval, wrapped: `chTimeAddX`.
pub fn time_add(time: u32, interval: u32) -> u32 {
    // SAFETY: numbers go in and come out.
    unsafe { nil_time_add(time, interval) }
}

/// End minus start, wrapped: `chTimeDiffX`.
pub fn time_diff(start: u32, end: u32) -> u32 {
    // SAFETY: as in `time_add`.
    unsafe { nil_time_diff(start, end) }
}

/// Whether a time lies from `start` on and before `end`: `chTimeIsInRangeX`.
pub fn time_in_range(time: u32, start: u32, end: u32) -> bool {
    // SAFETY: as in `time_add`.
    unsafe { nil_time_in_range(time, start, end) == 1 }
}

/// Seconds in ticks, rounded upward: `TIME_S2I`; or the refusal 6.
pub fn s2i(seconds: u32, frequency: u32) -> Result<u32, u8> {
    let mut ticks = 0;
    // SAFETY: the place for the ticks is a local of its own, here and below.
    let code = unsafe { nil_s2i(seconds, frequency, &mut ticks) };
    accepted(code, ticks)
}

/// Milliseconds in ticks: `TIME_MS2I`.
pub fn ms2i(milliseconds: u32, frequency: u32) -> Result<u32, u8> {
    let mut ticks = 0;
    // SAFETY: as in `s2i`.
    let code = unsafe { nil_ms2i(milliseconds, frequency, &mut ticks) };
    accepted(code, ticks)
}

/// Microseconds in ticks: `TIME_US2I`.
pub fn us2i(microseconds: u32, frequency: u32) -> Result<u32, u8> {
    let mut ticks = 0;
    // SAFETY: as in `s2i`.
    let code = unsafe { nil_us2i(microseconds, frequency, &mut ticks) };
    accepted(code, ticks)
}

/// Ticks in seconds, rounded upward: `TIME_I2S`; or the refusal 6.
pub fn i2s(ticks: u32, frequency: u32) -> Result<u64, u8> {
    let mut seconds = 0;
    // SAFETY: as in `s2i`.
    let code = unsafe { nil_i2s(ticks, frequency, &mut seconds) };
    accepted(code, seconds)
}

/// Ticks in milliseconds: `TIME_I2MS`.
pub fn i2ms(ticks: u32, frequency: u32) -> Result<u64, u8> {
    let mut milliseconds = 0;
    // SAFETY: as in `s2i`.
    let code = unsafe { nil_i2ms(ticks, frequency, &mut milliseconds) };
    accepted(code, milliseconds)
}

/// Ticks in microseconds: `TIME_I2US`.
pub fn i2us(ticks: u32, frequency: u32) -> Result<u64, u8> {
    let mut microseconds = 0;
    // SAFETY: as in `s2i`.
    let code = unsafe { nil_i2us(ticks, frequency, &mut microseconds) };
    accepted(code, microseconds)
}

fn transferred(code: u8, moved: i32) -> Result<Transfer, u8> {
    let transfer = if moved == RESET {
        Transfer::Reset
    } else {
        Transfer::Moved(moved as usize)
    };
    accepted(code, transfer)
}

/// Sets up so many empty pipes; or refuses with 14 for more than 4, and writes nothing.
pub fn pipe_fresh(pipes: &mut Pipes, number: u32) -> Result<(), u8> {
    // SAFETY: the reference is valid and aligned.
    let code = unsafe { nil_pipe_fresh(pipes, number) };
    accepted(code, ())
}

/// Puts bytes into a pipe, as many as its buffer has room for; what passes the buffer's end goes on at its start, and no other
/// byte changes. Nobody is woken. It refuses with 5 for a pipe that is not there, then for a buffer whose length is not 1 to
/// 256, then with 6 for a pipe whose places or count do not fit that length; then no byte of pipes and buffer changes.
pub fn pipe_write(
    pipes: &mut Pipes,
    pipe: u32,
    buffer: &mut [u8],
    offered: &[u8],
) -> Result<Transfer, u8> {
    let mut moved = 0;
    // SAFETY: as in `read`; slices that may be changed overlap nothing else, and `moved` is a local of its own.
    let code = unsafe {
        nil_pipe_write(
            pipes,
            pipe,
            buffer.as_mut_ptr(),
            buffer.len(),
            offered.as_ptr(),
            offered.len(),
            &mut moved,
        )
    };
    transferred(code, moved)
}

/// Takes bytes out of a pipe, as many as the target holds and there are; they stand at the target's start. It refuses as
/// [`pipe_write`] does; then no byte of pipes and target changes.
pub fn pipe_read(
    pipes: &mut Pipes,
    pipe: u32,
    buffer: &[u8],
    target: &mut [u8],
) -> Result<Transfer, u8> {
    let mut moved = 0;
    // SAFETY: as in `pipe_write`.
    let code = unsafe {
        nil_pipe_read(
            pipes,
            pipe,
            buffer.as_ptr(),
            buffer.len(),
            target.as_mut_ptr(),
            target.len(),
            &mut moved,
        )
    };
    transferred(code, moved)
}

/// Empties a pipe and sets its reset state. `length` is that of its buffer; it refuses as a transfer does.
pub fn pipe_reset(pipes: &mut Pipes, pipe: u32, length: usize) -> Result<(), u8> {
    // SAFETY: as in `pipe_fresh`.
    let code = unsafe { nil_pipe_reset(pipes, pipe, length) };
    accepted(code, ())
}

/// Ends the reset state of a pipe, and leaves all else. It refuses as [`pipe_reset`] does.
pub fn pipe_resume(pipes: &mut Pipes, pipe: u32, length: usize) -> Result<(), u8> {
    // SAFETY: as in `pipe_fresh`.
    let code = unsafe { nil_pipe_resume(pipes, pipe, length) };
    accepted(code, ())
}

/// Lists what differs between two sets of tables, each with its clock: an entry for each field, by object, number and field; none
/// exactly where they are the same in all that counts. A slot or a place of a free list that only the second uses is listed with
/// 0 for the old value, one that only the first uses is not listed. The entries stand at the front of `list`, which has room for
/// any list where it has [`FIELDS`] of them, and are given back. It refuses with 1 for the first tables or the second, then with 5
/// where sizes or slots differ, then with 16 for the room, and writes nothing.
pub fn compare<'a>(
    first: &Tables,
    first_clock: &Clock,
    second: &Tables,
    second_clock: &Clock,
    list: &'a mut [Change],
) -> Result<&'a [Change], u8> {
    let mut entries = 0;
    // no list is longer
    let room = list.len().min(FIELDS);
    // SAFETY: references and slices lead to as many bytes as is said; a `Change` is five numbers; `entries` is a local of its own.
    let code = unsafe {
        nil_compare_bytes(
            first,
            TABLES_BYTES,
            first_clock,
            CLOCK_BYTES,
            second,
            TABLES_BYTES,
            second_clock,
            CLOCK_BYTES,
            list.as_mut_ptr(),
            room * CHANGE_NUMBERS,
            &mut entries,
        )
    };
    accepted(code, &list[..entries])
}

/// Stores each entry's new value in its field, in the list's order, cut to the field's width, whatever the tables hold; then makes
/// the words anew. An entry that names no field is passed over; gives how many were. What [`compare`] lists, applied to the first
/// tables, gives the second in all that counts.
pub fn apply(tables: &mut Tables, clock: &mut Clock, list: &[Change]) -> usize {
    // SAFETY: as in `compare`; what may be changed overlaps nothing else.
    unsafe {
        nil_apply_bytes(
            tables,
            TABLES_BYTES,
            clock,
            CLOCK_BYTES,
            list.as_ptr(),
            list.len() * CHANGE_NUMBERS,
        )
    }
}

/// Writes tables and clock, whatever they hold, as [`SAVED`] bytes with a checksum; or refuses with 16, and writes nothing.
pub fn save(tables: &Tables, clock: &Clock, file: &mut [u8]) -> Result<(), u8> {
    // SAFETY: as in `apply`.
    let code = unsafe {
        nil_save_bytes(
            tables,
            TABLES_BYTES,
            clock,
            CLOCK_BYTES,
            file.as_mut_ptr(),
            file.len(),
        )
    };
    accepted(code, ())
}

/// Reads what [`save`] has written; or refuses with 11 for another layout, or less than its number, then with 12 or 13 for bytes
/// too few or too many, then with 6 for another checksum, and writes nothing. Tables that were broken when they were saved come
/// back so.
pub fn load(file: &[u8], tables: &mut Tables, clock: &mut Clock) -> Result<(), u8> {
    // SAFETY: as in `apply`.
    let code = unsafe {
        nil_load_bytes(
            file.as_ptr(),
            file.len(),
            tables,
            TABLES_BYTES,
            clock,
            CLOCK_BYTES,
        )
    };
    accepted(code, ())
}

/// Reads the record at a place of a trace: the sizes at place 0, a step or the end elsewhere. The trace's length and version are judged at
/// place 0 alone: [`code::TOO_LONG`] and [`code::BAD_VERSION`] come there and nowhere else.
pub fn read(trace: &[u8], at: usize) -> Read {
    let mut raw = RawRead::default();
    // SAFETY: a slice's pointer is never null and leads to its length of bytes; the result is a local of its own.
    unsafe { nil_read(trace.as_ptr(), trace.len(), at, &mut raw) };
    let found = match (raw.code, raw.found) {
        (0, 0) => Found::End,
        (0, 1) => Found::Sizes(raw.sizes),
        (0, _) => Found::Step(raw.step),
        (code, _) => Found::Refused(code as u8),
    };
    Read {
        found,
        number: raw.number,
        next: raw.next,
    }
}

/// Writes a trace's head and gives the place after it; or refuses with 14 or 16, and writes nothing.
pub fn write_sizes(buffer: &mut [u8], sizes: &Sizes) -> Result<usize, u8> {
    let mut next = 0;
    // SAFETY: as in `read`; a slice that may be changed overlaps nothing else.
    let code = unsafe { nil_write_sizes(buffer.as_mut_ptr(), buffer.len(), sizes, &mut next) };
    accepted(code, next)
}

/// Writes the record of a step at a place and gives the place after it; or refuses with 15 or 16, and writes nothing.
pub fn write_step(buffer: &mut [u8], at: usize, request: &Request) -> Result<usize, u8> {
    let mut next = 0;
    // SAFETY: as in `write_sizes`.
    let code = unsafe { nil_write_step(buffer.as_mut_ptr(), buffer.len(), at, request, &mut next) };
    accepted(code, next)
}

/// The timeout here for a timeout of compiled firmware: its `TIME_INFINITE` (0) and `TIME_IMMEDIATE` (4294967295) change
/// places, all others stay.
pub fn timeout(firmware: u32) -> u32 {
    match firmware {
        0 => INFINITE,
        4294967295 => IMMEDIATE,
        ticks => ticks,
    }
}

/// The layout, as `nil.h` has it. Of each struct a value is made whose fields hold 1, 2, 3 and so on, and its bytes are looked
/// at: a field that lies elsewhere is an error of the compiler, and so is padding, whose bytes have no value. (`offset_of!`
/// would say the same; it is younger than the compilers of some plants.)
#[allow(dead_code)] // Rust 1.63 does not see that `const _` uses a constant
mod layout {
    use super::*;
    use core::mem::transmute;

    const CALL: Call = Call {
        kind: 1,
        object: 2,
        operand: 3,
        timeout: 4,
    };
    const ANSWER: Answer = Answer {
        message: 1,
        datum: 2,
    };
    const THREAD: Thread = Thread {
        state: 1,
        place: 2,
        remaining: 3,
        pending: 4,
        awaited: 5,
        message: 6,
        call: CALL,
        answer: ANSWER,
        cause: 7,
        step: 8,
    };
    const WORDS: Words = Words {
        ready: 1,
        waiting: [2; PLACES],
        unused: 3,
    };
    const MAILBOX: Mailbox = Mailbox {
        read: 1,
        write: 2,
        count: 3,
        reset: 4,
        messages: [5; SLOTS],
    };
    const POOL: Pool = Pool {
        length: 1,
        list: [2; OBJECTS],
        marks: [3; OBJECTS],
    };
    const SIZES: Sizes = Sizes {
        threads: 1,
        semaphores: 2,
        queues: 3,
        references: 4,
        mailboxes: 5,
        pools: 6,
        slots: [7, 8, 9, 10],
    };
    const PIPE: Pipe = Pipe {
        read: 1,
        write: 2,
        count: 3,
        reset: 4,
    };
    const REQUEST: Request = Request {
        kind: 1,
        caller: 2,
        object: 3,
        unused: 4,
        a: 5,
        timeout: 6,
    };

    const _: () = {
        let b: [u8; 12] = unsafe { transmute(CALL) };
        assert!(b[0] == 1 && b[2] == 2 && b[4] == 3 && b[8] == 4);
        let b: [u8; 8] = unsafe { transmute(ANSWER) };
        assert!(b[0] == 1 && b[4] == 2);
        let b: [u8; 48] = unsafe { transmute(THREAD) };
        assert!(b[0] == 1 && b[2] == 2 && b[4] == 3 && b[8] == 4 && b[12] == 5 && b[16] == 6);
        assert!(b[20] == 1 && b[28] == 4 && b[32] == 1 && b[36] == 2 && b[40] == 7 && b[44] == 8);
    };

    const _: () = {
        let b: [u8; 76] = unsafe { transmute(WORDS) };
        assert!(b[0] == 1 && b[2] == 2 && b[72] == 2 && b[74] == 3);
        let b: [u8; 72] = unsafe { transmute(MAILBOX) };
        assert!(b[0] == 1 && b[2] == 2 && b[4] == 3 && b[6] == 4 && b[8] == 5 && b[68] == 5);
        let b: [u8; 66] = unsafe { transmute(POOL) };
        assert!(b[0] == 1 && b[2] == 2 && b[33] == 2 && b[34] == 3 && b[65] == 3);
        let b: [u8; 20] = unsafe { transmute(SIZES) };
        assert!(b[0] == 1 && b[2] == 2 && b[4] == 3 && b[6] == 4 && b[8] == 5 && b[10] == 6);
        assert!(b[12] == 7 && b[14] == 8 && b[16] == 9 && b[18] == 10);
    };

    const _: () = {
        let b: [u8; 1572] = unsafe {
            transmute(Tables {
                threads: [THREAD; THREADS],
                counters: [11; PLACES],
                references: [12; REFERENCES],
                words: WORDS,
                steps: 13,
                mailboxes: [MAILBOX; MAILBOXES],
                pools: [POOL; POOLS],
                sizes: SIZES,
            })
        };
        assert!(
            b[0] == 1
                && b[720] == 1
                && b[768] == 11
                && b[908] == 11
                && b[912] == 12
                && b[919] == 12
        );
        assert!(
            b[920] == 1
                && b[994] == 3
                && b[996] == 13
                && b[1000] == 1
                && b[1008] == 5
                && b[1288] == 1
                && b[1290] == 2
                && b[1552] == 1
                && b[1570] == 10
        );
    };

    const _: () = {
        let b: [u8; 8] = unsafe {
            transmute(Clock {
                time: 1,
                frequency: 2,
            })
        };
        assert!(b[0] == 1 && b[4] == 2);
        let b: [u8; 8] = unsafe { transmute(PIPE) };
        assert!(b[0] == 1 && b[2] == 2 && b[4] == 3 && b[6] == 4);
        let b: [u8; 34] = unsafe {
            transmute(Pipes {
                pipes: [PIPE; PIPES],
                number: 5,
            })
        };
        assert!(b[0] == 1 && b[8] == 1 && b[30] == 4 && b[32] == 5);
        let b: [u8; 12] = unsafe { transmute(REQUEST) };
        assert!(b[0] == 1 && b[1] == 2 && b[2] == 3 && b[3] == 4 && b[4] == 5 && b[8] == 6);
        let b: [u8; 16] = unsafe {
            transmute(Outcome {
                code: 1,
                running: 2,
                woken: 3,
                finished: 4,
                message: 5,
                datum: 6,
            })
        };
        assert!(b[0] == 1 && b[2] == 2 && b[4] == 3 && b[6] == 4 && b[8] == 5 && b[12] == 6);
        let b: [u8; 4 * CHANGE_NUMBERS] = unsafe {
            transmute(Change {
                object: 1,
                number: 2,
                field: 3,
                old: 4,
                new: 5,
            })
        };
        assert!(b[0] == 1 && b[4] == 2 && b[8] == 3 && b[12] == 4 && b[16] == 5);
        assert!(SAVED == 8 + TABLES_BYTES + CLOCK_BYTES);
        let b: [u8; 56] = unsafe {
            transmute(RawRead {
                next: 1,
                number: 2,
                step: REQUEST,
                sizes: SIZES,
                found: 3,
                code: 4,
            })
        };
        assert!(
            b[0] == 1
                && b[8] == 2
                && b[16] == 1
                && b[24] == 6
                && b[28] == 1
                && b[46] == 10
                && b[48] == 3
                && b[52] == 4
        );
    };
}

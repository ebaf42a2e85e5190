//! The Rust wrapper at work: document 01's own six steps are written as a trace, read back and made, with the listing's lines
//! as what is expected; then what each function refuses. It ends with status 0, or panics at the first surprise.
//!
//! It has C's `main`: nothing of Rust's own runs before it.
#![no_main]

#[path = "nil.rs"]
mod nil;

use nil::kind::{SEMAPHORE_RESET, SEMAPHORE_WAIT, SIGNAL, TICK};
use nil::{Change, Clock, Found, Outcome, Pipe, Pipes, Request, Sizes, Tables, Transfer, NOBODY};

const SIZES: Sizes = Sizes {
    threads: 2,
    semaphores: 1,
    queues: 0,
    references: 0,
    mailboxes: 0,
    pools: 0,
    slots: [0; 4],
};

fn request(kind: u8, caller: u8, timeout: u32) -> Request {
    Request {
        kind,
        caller,
        timeout,
        ..Request::default()
    }
}

fn six_steps() -> [Request; 6] {
    [
        request(SEMAPHORE_WAIT, 0, 3),
        request(SIGNAL, 1, 0),
        request(SEMAPHORE_WAIT, 0, 2),
        request(TICK, NOBODY, 0),
        request(TICK, NOBODY, 0),
        request(SIGNAL, 1, 0),
    ]
}

/// Code, running thread, woken and finished mask, as the paper lists them; the last two are the answer.
const EXPECTED: [(u16, u16, u16, u16, i32); 6] = [
    (0, 1, 0, 0, 0),
    (0, 0, 1, 3, 0),
    (0, 1, 0, 0, 0),
    (0, 1, 0, 0, 0),
    (0, 0, 1, 1, 0),
    (3, 0, 0, 0, 0),
];

fn written() -> Vec<u8> {
    let mut buffer = [0; 200];
    let mut at = nil::write_sizes(&mut buffer, &SIZES).unwrap();
    assert_eq!(at, 9);
    for step in six_steps().iter() {
        at = nil::write_step(&mut buffer, at, step).unwrap();
    }
    buffer[..at].to_vec()
}

fn plays_the_six_steps() {
    let trace = written();
    let head = nil::read(&trace, 0);
    assert_eq!(
        (head.found, head.number, head.next),
        (Found::Sizes(SIZES), 0, 9)
    );
    let (mut tables, mut clock) = (Tables::NONE, Clock::default());
    nil::fresh(&mut tables, &mut clock, &SIZES, nil::FREQUENCY).unwrap();
    let mut at = head.next;
    for (k, (step, line)) in six_steps().iter().zip(EXPECTED.iter()).enumerate() {
        let read = nil::read(&trace, at);
        assert_eq!((read.found, read.number), (Found::Step(*step), k + 1));
        at = read.next;
        let &(code, running, woken, finished, message) = line;
        let expected = Outcome {
            code,
            running,
            woken,
            finished,
            message,
            datum: 0,
        };
        assert_eq!(
            nil::step(&mut tables, &mut clock, step),
            expected,
            "step {}",
            k + 1
        );
    }
    assert_eq!(nil::read(&trace, at).found, Found::End);
    assert_eq!(clock.time, 2);
    assert_eq!(tables.threads[0].answer.message, nil::TIMEOUT);
}

fn refuses_and_keeps_every_byte() {
    let (mut tables, mut clock) = (Tables::NONE, Clock::default());
    let too_many = Sizes {
        threads: 17,
        ..SIZES
    };
    assert_eq!(
        nil::fresh(&mut tables, &mut clock, &too_many, 1000),
        Err(nil::code::BAD_SIZE)
    );
    assert_eq!(
        nil::fresh(&mut tables, &mut clock, &SIZES, 0),
        Err(nil::code::BAD_VALUE)
    );
    assert_eq!((tables, clock), (Tables::NONE, Clock::default()));
    let refused = nil::step(&mut tables, &mut clock, &request(TICK, NOBODY, 0));
    assert_eq!(
        refused,
        Outcome {
            code: 1,
            running: 255,
            ..Outcome::default()
        }
    );
    assert_eq!((tables, clock), (Tables::NONE, Clock::default()));
}

fn refuses_traces_and_buffers() {
    let trace = written();
    let cut = nil::read(&trace[..trace.len() - 1], trace.len() - 13);
    assert_eq!(
        (cut.found, cut.number, cut.next),
        (Found::Refused(nil::code::CUT_SHORT), 6, trace.len() - 13)
    );
    assert_eq!(
        nil::read(&[], 0).found,
        Found::Refused(nil::code::BAD_VERSION)
    );
    let mut short = [7; 8];
    assert_eq!(
        nil::write_sizes(&mut short, &SIZES),
        Err(nil::code::NO_SPACE)
    );
    assert_eq!(
        nil::write_step(&mut short, 60000, &request(TICK, 255, 0)),
        Err(nil::code::TOO_LONG)
    );
    assert_eq!(short, [7; 8]);
}

fn translates_timeouts() {
    assert_eq!(
        [0, 1, 4294967294, 4294967295].map(nil::timeout),
        [nil::INFINITE, 1, nil::LONGEST, nil::IMMEDIATE]
    );
}

fn knows_its_archive() {
    assert!(nil::layout_fits());
    let (mut tables, mut clock) = (Tables::NONE, Clock::default());
    assert_eq!(
        nil::broken(&tables, &clock),
        Some(nil::Broken { rule: 1, row: 0 })
    );
    nil::fresh(&mut tables, &mut clock, &SIZES, nil::FREQUENCY).unwrap();
    assert_eq!(nil::broken(&tables, &clock), None);
    tables.threads[1].remaining = 1;
    assert_eq!(
        nil::broken(&tables, &clock),
        Some(nil::Broken { rule: 7, row: 1 })
    );
}

fn shows_who_is_ready_and_who_waits() {
    let (mut tables, mut clock) = (Tables::NONE, Clock::default());
    assert_eq!(
        (nil::ready_count(&tables), nil::first_ready(&tables)),
        (0, None)
    );
    nil::fresh(&mut tables, &mut clock, &SIZES, nil::FREQUENCY).unwrap();
    assert_eq!(
        (nil::ready_count(&tables), nil::first_ready(&tables)),
        (2, Some(0))
    );
    let mut shown = [(0, None, 0); 6];
    for (step, shown) in six_steps().iter().zip(shown.iter_mut()) {
        nil::step(&mut tables, &mut clock, step);
        *shown = (
            nil::ready_count(&tables),
            nil::first_ready(&tables),
            nil::waiting(&tables, 0),
        );
    }
    let (waits, ready) = ((1, Some(1), 1), (2, Some(0), 0));
    assert_eq!(shown, [waits, ready, waits, waits, ready, ready]);
    assert_eq!(
        [36, 65536, 4294967295].map(|place| nil::waiting(&tables, place)),
        [0; 3]
    );
}

/// A wrong word is refused, with its rule and its place; a word of a place that there is not goes through and stays.
fn refuses_wrong_words() {
    let (mut good, mut clock) = (Tables::NONE, Clock::default());
    nil::fresh(&mut good, &mut clock, &SIZES, nil::FREQUENCY).unwrap();
    let tick = request(TICK, NOBODY, 0);
    let mut tables = good;
    for (ready, waiting, rule) in [(1, 0, 13), (7, 0, 13), (3, 2, 14), (3, 4, 14)] {
        tables.words.ready = ready;
        tables.words.waiting[0] = waiting;
        let damaged = tables;
        assert_eq!(
            nil::broken(&tables, &clock),
            Some(nil::Broken { rule, row: 0 })
        );
        assert_eq!(nil::step(&mut tables, &mut clock, &tick).code, 1);
        assert_eq!(tables, damaged);
    }
    tables = good;
    tables.words.waiting[1] = 65535;
    tables.words.unused = 7;
    let odd = tables;
    assert_eq!(nil::broken(&tables, &clock), None);
    assert_eq!(nil::step(&mut tables, &mut clock, &tick).code, 0);
    assert_eq!(tables, Tables { steps: 1, ..odd });
    assert_eq!(nil::waiting(&tables, 1), 65535);
}

/// At the top a signal answers that it did not count. A thread's leaves its answer in the thread's row, an interrupt's nothing;
/// both are steps, and have a number.
fn signals_at_the_top() {
    let (mut tables, mut clock) = (Tables::NONE, Clock::default());
    nil::fresh(&mut tables, &mut clock, &SIZES, nil::FREQUENCY).unwrap();
    let reset = Request {
        a: 2147483646,
        ..request(SEMAPHORE_RESET, NOBODY, 0)
    };
    nil::step(&mut tables, &mut clock, &reset);
    let signal = request(SIGNAL, NOBODY, 0);
    assert_eq!(nil::step(&mut tables, &mut clock, &signal).message, nil::OK);
    let mut top = tables;
    assert_eq!(top.counters[0], 2147483647);
    let mut not_counted = Outcome {
        message: nil::NOT_COUNTED,
        ..Outcome::default()
    };
    let answer = nil::step(&mut tables, &mut clock, &signal);
    top.steps = 3;
    assert_eq!((answer, tables), (not_counted, top));
    top.steps = 4;
    top.threads[0].answer.message = nil::NOT_COUNTED;
    not_counted.finished = 1;
    let answer = nil::step(&mut tables, &mut clock, &request(SIGNAL, 0, 0));
    assert_eq!((answer, tables), (not_counted, top));
}

/// Thread 0 is woken by the signal of step 2 and the last tick of step 5. The sixth step is refused, and has no number.
fn tells_why_a_thread_woke() {
    let (mut tables, mut clock) = (Tables::NONE, Clock::default());
    nil::fresh(&mut tables, &mut clock, &SIZES, nil::FREQUENCY).unwrap();
    let mut told = [(0, 0, 0); 6];
    for (step, told) in six_steps().iter().zip(told.iter_mut()) {
        nil::step(&mut tables, &mut clock, step);
        *told = (
            tables.steps,
            tables.threads[0].cause,
            tables.threads[0].step,
        );
    }
    let (signal, tick) = (nil::CAUSE_SIGNAL, nil::CAUSE_TICK);
    assert_eq!(told[..2], [(1, nil::CAUSE_NONE, 0), (2, signal, 2)]);
    assert_eq!(told[2..4], [(3, signal, 2), (4, signal, 2)]);
    assert_eq!(told[4..], [(5, tick, 5), (5, tick, 5)]);
    let row = tables.threads[1];
    assert_eq!((row.cause, row.step), (nil::CAUSE_NONE, 0));
}

/// A cause outside the list is refused, with its rule and its thread; the step number stays at its end.
fn refuses_wrong_causes() {
    let (mut good, mut clock) = (Tables::NONE, Clock::default());
    nil::fresh(&mut good, &mut clock, &SIZES, nil::FREQUENCY).unwrap();
    let tick = request(TICK, NOBODY, 0);
    let mut tables = good;
    for cause in [9, 255, 65535, 65536, 4294967295] {
        tables.threads[1].cause = cause;
        let damaged = tables;
        assert_eq!(
            nil::broken(&tables, &clock),
            Some(nil::Broken { rule: 15, row: 1 })
        );
        assert_eq!(nil::step(&mut tables, &mut clock, &tick).code, 1);
        assert_eq!(tables, damaged);
    }
    tables = good;
    tables.threads[1].cause = nil::CAUSE_TICK;
    tables.threads[2].cause = 9;
    tables.steps = nil::LAST_STEP - 1;
    let late = Tables {
        steps: nil::LAST_STEP,
        ..tables
    };
    for _ in 0..2 {
        assert_eq!(nil::broken(&tables, &clock), None);
        assert_eq!(nil::step(&mut tables, &mut clock, &tick).code, 0);
        assert_eq!(tables, late);
    }
}

/// The paper's own numbers, and a refusal each way.
fn tells_the_time() {
    assert_eq!(nil::time_add(4294967295, 1), 0);
    assert_eq!(nil::time_diff(4294967290, 5), 11);
    assert!(!nil::time_in_range(3, 3, 3) && nil::time_in_range(0, 4294967295, 1));
    assert_eq!(nil::us2i(1500, 1000), Ok(2));
    assert_eq!((nil::ms2i(1, 100), nil::ms2i(0, 1000)), (Ok(1), Ok(0)));
    assert_eq!((nil::s2i(2, 1000), nil::s2i(1, 0)), (Ok(2000), Err(6)));
    assert_eq!((nil::i2s(1, 1000), nil::i2ms(3, 2000)), (Ok(1), Ok(2)));
    // the new boxes' frequency: a second, and the longest interval in whole seconds
    assert_eq!(nil::s2i(1, nil::FREQUENCY), Ok(10000));
    assert_eq!(nil::s2i(429496, nil::FREQUENCY), Ok(4294960000));
    assert_eq!(nil::s2i(429497, nil::FREQUENCY), Err(6));
    assert_eq!(
        (nil::i2us(7, 1000000), nil::i2us(nil::INFINITE, 1000)),
        (Ok(7), Err(6))
    );
}

fn pipes(number: u32) -> Pipes {
    let mut pipes = Pipes::default();
    nil::pipe_fresh(&mut pipes, number).unwrap();
    pipes
}

/// Seven bytes go through a buffer of five, across its end.
fn pipes_bytes() {
    let (mut pipes, mut buffer, mut target) = (pipes(2), *b".....", *b"-------");
    let wrote = nil::pipe_write(&mut pipes, 1, &mut buffer, b"abc");
    assert_eq!(wrote, Ok(Transfer::Moved(3)));
    let read = nil::pipe_read(&mut pipes, 1, &buffer, &mut target[..2]);
    assert_eq!(read, Ok(Transfer::Moved(2)));
    let wrote = nil::pipe_write(&mut pipes, 1, &mut buffer, b"defgh");
    assert_eq!((wrote, &buffer), (Ok(Transfer::Moved(4)), b"fgcde"));
    let full = Pipe {
        read: 2,
        write: 2,
        count: 5,
        reset: 0,
    };
    assert_eq!((pipes.pipes[0], pipes.pipes[1]), (Pipe::default(), full));
    let read = nil::pipe_read(&mut pipes, 1, &buffer, &mut target[2..]);
    assert_eq!((read, &target), (Ok(Transfer::Moved(5)), b"abcdefg"));
    let nothing = nil::pipe_read(&mut pipes, 1, &buffer, &mut []);
    assert_eq!(nothing, Ok(Transfer::Moved(0)));
    let nothing = nil::pipe_write(&mut pipes, 0, &mut buffer, &[]);
    assert_eq!(nothing, Ok(Transfer::Moved(0)));
}

fn resets_and_resumes_pipes() {
    let (mut pipes, mut buffer, mut target) = (pipes(1), *b"....", *b"--");
    nil::pipe_write(&mut pipes, 0, &mut buffer, b"abc").unwrap();
    assert_eq!(nil::pipe_reset(&mut pipes, 0, 4), Ok(()));
    let wrote = nil::pipe_write(&mut pipes, 0, &mut buffer, b"x");
    let read = nil::pipe_read(&mut pipes, 0, &buffer, &mut target);
    assert_eq!(
        (wrote, read, &buffer, &target),
        (Ok(Transfer::Reset), Ok(Transfer::Reset), b"abc.", b"--")
    );
    assert_eq!(nil::pipe_resume(&mut pipes, 0, 4), Ok(()));
    let wrote = nil::pipe_write(&mut pipes, 0, &mut buffer, b"x");
    assert_eq!((wrote, &buffer), (Ok(Transfer::Moved(1)), b"xbc."));
}

/// Each of the four calls, with the same number; every byte stays.
fn refuses_pipe(mut pipes: Pipes, pipe: u32, length: usize, code: u8) {
    let (before, mut buffer, mut target) = (pipes, vec![7; length], [7; 3]);
    let wrote = nil::pipe_write(&mut pipes, pipe, &mut buffer, b"abc");
    let read = nil::pipe_read(&mut pipes, pipe, &buffer, &mut target);
    assert_eq!((wrote, read), (Err(code), Err(code)));
    let reset = nil::pipe_reset(&mut pipes, pipe, length);
    let resumed = nil::pipe_resume(&mut pipes, pipe, length);
    assert_eq!((reset, resumed), (Err(code), Err(code)));
    assert_eq!(
        (pipes, buffer, target),
        (before, vec![7; length], [7; 3]),
        "refused with {}",
        code
    );
}

fn refuses_pipes() {
    let (object, value) = (nil::code::BAD_OBJECT, nil::code::BAD_VALUE);
    let mut table = pipes(4);
    assert_eq!(nil::pipe_fresh(&mut table, 5), Err(nil::code::BAD_SIZE));
    assert_eq!(table, pipes(4));
    refuses_pipe(table, 4, 8, object);
    refuses_pipe(table, 0, 0, object);
    refuses_pipe(table, 0, nil::PIPE_BYTES + 1, object);
    table.pipes[0].count = 8;
    refuses_pipe(table, 0, 7, value);
    table.pipes[0].reset = 1;
    refuses_pipe(table, 0, 7, value);
    table.number = 5;
    refuses_pipe(table, 0, 8, object);
}

/// Tables and clock after so many of the six steps.
fn after(steps: usize) -> (Tables, Clock) {
    let (mut tables, mut clock) = (Tables::NONE, Clock::default());
    nil::fresh(&mut tables, &mut clock, &SIZES, nil::FREQUENCY).unwrap();
    for step in six_steps().iter().take(steps) {
        nil::step(&mut tables, &mut clock, step);
    }
    (tables, clock)
}

fn change(object: u32, field: u32, old: u32, new: u32) -> Change {
    Change {
        object,
        number: 0,
        field,
        old,
        new,
    }
}

/// Between steps 2 and 5 thread 0 has waited and timed out. The list leads there, words and all.
fn lists_what_differs() {
    let ((first, first_clock), (second, second_clock)) = (after(2), after(5));
    let mut room = [Change::default(); nil::FIELDS];
    let list = nil::compare(&first, &first_clock, &second, &second_clock, &mut room).unwrap();
    let minus_1 = nil::TIMEOUT as u32;
    let thread = nil::OBJECT_THREAD;
    assert_eq!(
        list,
        [
            change(thread, nil::FIELD_THREAD_MESSAGE, 0, minus_1),
            change(thread, nil::FIELD_THREAD_ANSWER_MESSAGE, 0, minus_1),
            change(thread, nil::FIELD_THREAD_CAUSE, 1, 8),
            change(thread, nil::FIELD_THREAD_STEP, 2, 5),
            change(nil::OBJECT_CLOCK, nil::FIELD_CLOCK_TIME, 0, 2),
            change(nil::OBJECT_STEPS, nil::FIELD_STEPS_NUMBER, 2, 5),
        ]
    );
    let (mut tables, mut clock) = (first, first_clock);
    assert_eq!(nil::apply(&mut tables, &mut clock, list), 0);
    assert_eq!((tables, clock), (second, second_clock));
    // threads that are not in use do not count
    tables.threads[2].pending = 7;
    let none = nil::compare(&tables, &clock, &second, &second_clock, &mut []);
    assert_eq!(none, Ok(&[][..]));
}

fn refuses_to_compare() {
    let ((first, clock), (second, _)) = (after(0), after(1));
    let mut room = [change(7, 7, 7, 7); 6];
    let compare = |a: &Tables, b: &Tables, b_clock: &Clock, room: &mut [Change]| {
        let before = room.to_vec();
        let code = nil::compare(a, &clock, b, b_clock, room).err();
        assert!(code.is_none() || room == before);
        code
    };
    let (no_clock, mut other) = (Clock::default(), first);
    assert_eq!(compare(&first, &second, &no_clock, &mut room), Some(1));
    assert_eq!(compare(&Tables::NONE, &second, &clock, &mut room), Some(1));
    other.sizes.semaphores = 2;
    assert_eq!(compare(&other, &second, &clock, &mut []), Some(5));
    // a wait changes six fields
    let no_space = Some(nil::code::NO_SPACE);
    assert_eq!(compare(&first, &second, &clock, &mut room[..5]), no_space);
    assert_eq!(compare(&first, &second, &clock, &mut []), no_space);
    assert_eq!(compare(&first, &second, &clock, &mut room), None);
}

/// Names that no field has, a value too large, a place before the state that goes with it, a field twice.
fn applies_odd_lists() {
    let (mut tables, mut clock) = after(0);
    let mut expected = tables;
    let list = [
        change(8, 0, 0, 1),
        change(nil::OBJECT_THREAD, 14, 0, 1),
        change(nil::OBJECT_THREAD, nil::FIELD_THREAD_PLACE, 0, 0),
        change(nil::OBJECT_THREAD, nil::FIELD_THREAD_STATE, 0, 65536 + 3),
        change(nil::OBJECT_SEMAPHORE, 0, 0, 9),
        change(nil::OBJECT_SEMAPHORE, 0, 5, 4294967295),
        change(nil::OBJECT_CLOCK, nil::FIELD_CLOCK_TIME, 0, 4294967295),
    ];
    assert_eq!(nil::apply(&mut tables, &mut clock, &list), 2);
    expected.threads[0].state = nil::state::QUEUED;
    expected.counters[0] = -1;
    expected.words.ready = 2;
    expected.words.waiting[0] = 1;
    assert_eq!((tables, clock.time), (expected, 4294967295));
    assert_eq!(nil::apply(&mut tables, &mut clock, &[]), 0);
    assert_eq!(tables, expected);
}

/// They come back as they were, tables that do not hang together too.
fn saves_and_loads() {
    let (first, first_clock) = after(4);
    for tables in [first, Tables::NONE] {
        let mut file = [7; nil::SAVED];
        nil::save(&tables, &first_clock, &mut file).unwrap();
        assert_eq!(file[..4], nil::LAYOUT.to_le_bytes());
        let (mut loaded, mut clock) = (Tables::NONE, Clock::default());
        nil::load(&file, &mut loaded, &mut clock).unwrap();
        assert_eq!((loaded, clock), (tables, first_clock));
    }
}

fn refuses_to_save_and_load() {
    let (mut tables, mut clock) = after(4);
    let kept = (tables, clock);
    let mut file = [7; nil::SAVED + 1];
    let saved = nil::save(&tables, &clock, &mut file[..nil::SAVED - 1]);
    assert_eq!(saved, Err(nil::code::NO_SPACE));
    assert_eq!(file, [7; nil::SAVED + 1]);
    nil::save(&after(0).0, &clock, &mut file).unwrap();
    assert_eq!(file[nil::SAVED], 7);
    let mut load = |file: &[u8]| nil::load(file, &mut tables, &mut clock);
    assert_eq!(load(&file[..3]), Err(nil::code::BAD_VERSION));
    assert_eq!(load(&file[..nil::SAVED - 1]), Err(nil::code::CUT_SHORT));
    assert_eq!(load(&file), Err(nil::code::BAD_LENGTH));
    file[1000] ^= 1;
    assert_eq!(load(&file[..nil::SAVED]), Err(nil::code::BAD_VALUE));
    file[0] += 1;
    assert_eq!(load(&file[..nil::SAVED]), Err(nil::code::BAD_VERSION));
    assert_eq!((tables, clock), kept);
}

#[no_mangle]
pub extern "C" fn main() -> i32 {
    plays_the_six_steps();
    refuses_and_keeps_every_byte();
    refuses_traces_and_buffers();
    translates_timeouts();
    knows_its_archive();
    shows_who_is_ready_and_who_waits();
    refuses_wrong_words();
    signals_at_the_top();
    tells_why_a_thread_woke();
    refuses_wrong_causes();
    tells_the_time();
    pipes_bytes();
    resets_and_resumes_pipes();
    refuses_pipes();
    lists_what_differs();
    refuses_to_compare();
    applies_odd_lists();
    saves_and_loads();
    refuses_to_save_and_load();
    println!("nil_test: the wrapper does as the paper lists");
    0
}

//! The functions of `include/bay.h`, each behind a safe one. All unsafe code of this crate stands here.
//!
//! An answer is the result number beside what the function writes through its pointers.

#![allow(unsafe_code)]

// SAFETY: the archive defines these functions with these types: a slice crosses as a pointer and a length, a reference as a pointer.
unsafe extern "C" {
    safe fn bay_state_length() -> usize;
    safe fn bay_output_length() -> usize;
    fn bay_fresh(state: *mut u8, state_length: usize) -> u8;
    fn bay_step(
        state: *mut u8,
        state_length: usize,
        work: *mut u8,
        work_length: usize,
        output: *mut u8,
        output_length: usize,
        frame: *const u8,
        frame_length: usize,
        effects_length: *mut usize,
    ) -> u8;
    fn bay_waiting_count(
        state: *const u8,
        state_length: usize,
        resource: *const u8,
        resource_length: usize,
        count: *mut usize,
    ) -> u8;
    fn bay_in_flight_at(
        state: *const u8,
        state_length: usize,
        place: usize,
        found: *mut bool,
        number: *mut u64,
    ) -> u8;
    fn bay_cursor(
        state: *const u8,
        state_length: usize,
        found: *mut bool,
        cursor_at: *mut usize,
        cursor_length: *mut usize,
    ) -> u8;
    fn bay_record_at(
        state: *const u8,
        state_length: usize,
        place: usize,
        found: *mut bool,
        name_at: *mut usize,
        name_length: *mut usize,
        event_at: *mut usize,
        event_length: *mut usize,
    ) -> u8;
    safe fn bay_sender_length() -> usize;
    fn bay_sender_fresh(sender: *mut u8, sender_length: usize) -> u8;
    fn bay_sender_enter(
        sender: *mut u8,
        sender_length: usize,
        mill: u8,
        number: u64,
        granted: *mut bool,
        granted_mill: *mut u8,
        granted_number: *mut u64,
    ) -> u8;
    fn bay_sender_reply(
        sender: *mut u8,
        sender_length: usize,
        mill: u8,
        number: u64,
        granted: *mut bool,
        granted_mill: *mut u8,
        granted_number: *mut u64,
    ) -> u8;
    fn bay_sender_resume(sender: *mut u8, sender_length: usize, mill: u8) -> u8;
    safe fn bay_clerks_line_length() -> usize;
    safe fn bay_clerks_work_length() -> usize;
    fn bay_two_clerks(
        frame: *const u8,
        frame_length: usize,
        one: *mut u8,
        one_length: usize,
        two: *mut u8,
        two_length: usize,
        work: *mut u8,
        work_length: usize,
        one_line_length: *mut usize,
        two_line_length: *mut usize,
    ) -> u8;
}

/// A part of the state's bytes.
#[derive(Clone, Copy, Default)]
pub struct Part {
    at: usize,
    length: usize,
}

impl Part {
    pub fn of(self, state: &[u8]) -> &[u8] {
        &state[self.at..self.at + self.length]
    }
}

pub fn state_length() -> usize {
    bay_state_length()
}

pub fn output_length() -> usize {
    bay_output_length()
}

pub fn fresh(state: &mut [u8]) -> u8 {
    // SAFETY: pointer and length are those of one slice, which nobody else uses during the call.
    unsafe { bay_fresh(state.as_mut_ptr(), state.len()) }
}

/// The length of the effects.
pub fn step(state: &mut [u8], work: &mut [u8], output: &mut [u8], frame: &[u8]) -> (u8, usize) {
    let mut length = 0;
    // SAFETY: each pointer and length are those of one slice; the slices that are written, and `length`, overlap nothing and nobody
    // else uses them during the call.
    let code = unsafe {
        bay_step(
            state.as_mut_ptr(),
            state.len(),
            work.as_mut_ptr(),
            work.len(),
            output.as_mut_ptr(),
            output.len(),
            frame.as_ptr(),
            frame.len(),
            &raw mut length,
        )
    };
    (code, length)
}

pub fn waiting_count(state: &[u8], resource: &[u8]) -> (u8, usize) {
    let mut count = 0;
    // SAFETY: each pointer and length are those of one slice, only read; `count` is this function's own.
    let code = unsafe {
        bay_waiting_count(
            state.as_ptr(),
            state.len(),
            resource.as_ptr(),
            resource.len(),
            &raw mut count,
        )
    };
    (code, count)
}

/// The number at this place in order, if there is one.
pub fn in_flight_at(state: &[u8], place: usize) -> (u8, Option<u64>) {
    let mut found = false;
    let mut number = 0;
    // SAFETY: pointer and length are those of one slice, only read; `found` and `number` are this function's own, and `found` is
    // written as 0 or 1.
    let code = unsafe {
        bay_in_flight_at(
            state.as_ptr(),
            state.len(),
            place,
            &raw mut found,
            &raw mut number,
        )
    };
    (code, found.then_some(number))
}

/// Where the cursor's text is, if there is a cursor.
pub fn cursor(state: &[u8]) -> (u8, Option<Part>) {
    let mut found = false;
    let mut text = Part::default();
    // SAFETY: pointer and length are those of one slice, only read; `found` and `text` are this function's own, and `found` is
    // written as 0 or 1.
    let code = unsafe {
        bay_cursor(
            state.as_ptr(),
            state.len(),
            &raw mut found,
            &raw mut text.at,
            &raw mut text.length,
        )
    };
    (code, found.then_some(text))
}

/// Where the name and the event of the record at this place in order are, if there is one.
pub fn record_at(state: &[u8], place: usize) -> (u8, Option<(Part, Part)>) {
    let mut found = false;
    let mut name = Part::default();
    let mut event = Part::default();
    // SAFETY: pointer and length are those of one slice, only read; `found`, `name` and `event` are this function's own, and
    // `found` is written as 0 or 1.
    let code = unsafe {
        bay_record_at(
            state.as_ptr(),
            state.len(),
            place,
            &raw mut found,
            &raw mut name.at,
            &raw mut name.length,
            &raw mut event.at,
            &raw mut event.length,
        )
    };
    (code, found.then_some((name, event)))
}

pub fn sender_length() -> usize {
    bay_sender_length()
}

pub fn sender_fresh(sender: &mut [u8]) -> u8 {
    // SAFETY: pointer and length are those of one slice, which nobody else uses during the call.
    unsafe { bay_sender_fresh(sender.as_mut_ptr(), sender.len()) }
}

/// The function of an entry or of a reply.
type CallUse = unsafe extern "C" fn(*mut u8, usize, u8, u64, *mut bool, *mut u8, *mut u64) -> u8;

/// The mill and the number of the call that was granted, if one was.
fn call_use(
    function: CallUse,
    sender: &mut [u8],
    mill: u8,
    number: u64,
) -> (u8, Option<(u8, u64)>) {
    let mut granted = false;
    let mut call = (0, 0);
    // SAFETY: pointer and length are those of one slice, which nobody else uses during the call; `granted` and `call` are this
    // function's own, and `granted` is written as 0 or 1.
    let code = unsafe {
        function(
            sender.as_mut_ptr(),
            sender.len(),
            mill,
            number,
            &raw mut granted,
            &raw mut call.0,
            &raw mut call.1,
        )
    };
    (code, granted.then_some(call))
}

pub fn sender_enter(sender: &mut [u8], mill: u8, number: u64) -> (u8, Option<(u8, u64)>) {
    call_use(bay_sender_enter, sender, mill, number)
}

pub fn sender_reply(sender: &mut [u8], mill: u8, number: u64) -> (u8, Option<(u8, u64)>) {
    call_use(bay_sender_reply, sender, mill, number)
}

pub fn sender_resume(sender: &mut [u8], mill: u8) -> u8 {
    // SAFETY: pointer and length are those of one slice, which nobody else uses during the call.
    unsafe { bay_sender_resume(sender.as_mut_ptr(), sender.len(), mill) }
}

pub fn clerks_line_length() -> usize {
    bay_clerks_line_length()
}

pub fn clerks_work_length() -> usize {
    bay_clerks_work_length()
}

/// The lengths of the two lines.
pub fn two_clerks(
    frame: &[u8],
    one: &mut [u8],
    two: &mut [u8],
    work: &mut [u8],
) -> (u8, [usize; 2]) {
    let [mut one_line, mut two_line] = [0; 2];
    // SAFETY: each pointer and length are those of one slice; the slices that are written, and the two lengths, overlap nothing and
    // nobody else uses them during the call.
    let code = unsafe {
        bay_two_clerks(
            frame.as_ptr(),
            frame.len(),
            one.as_mut_ptr(),
            one.len(),
            two.as_mut_ptr(),
            two.len(),
            work.as_mut_ptr(),
            work.len(),
            &raw mut one_line,
            &raw mut two_line,
        )
    };
    (code, [one_line, two_line])
}

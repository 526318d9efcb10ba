// The entries of libjsxlib.a (hosts/jsxlib.h), with slices and answers.
use crate::{Refusal, STATE_SIZE};

extern "C" {
    fn jsx_open(
        text: *const u8,
        text_len: usize,
        job: *const u8,
        job_len: usize,
        state: *mut u8,
        state_len: usize,
        notices: *mut u8,
        notices_len: usize,
        figure: *mut usize,
    ) -> u8;
    fn jsx_root(
        text: *const u8,
        text_len: usize,
        state: *mut u8,
        state_len: usize,
        tape: *const u8,
        tape_len: usize,
        calls: *mut u8,
        calls_len: usize,
        notices: *mut u8,
        notices_len: usize,
        figure: *mut usize,
    ) -> u8;
    fn jsx_roots(
        text: *const u8,
        text_len: usize,
        state: *mut u8,
        state_len: usize,
        roots: *const u8,
        roots_len: usize,
        calls: *mut u8,
        calls_len: usize,
        notices: *mut u8,
        notices_len: usize,
        taken: *mut usize,
        figure: *mut usize,
    ) -> u8;
    fn jsx_records(
        text: *const u8,
        text_len: usize,
        state: *const u8,
        state_len: usize,
        target: *mut u8,
        target_len: usize,
        figure: *mut usize,
    ) -> u8;
    fn jsx_job(
        text: *const u8,
        text_len: usize,
        job: *const u8,
        job_len: usize,
        roots: *const u8,
        roots_len: usize,
        calls: *mut u8,
        calls_len: usize,
        notices: *mut u8,
        notices_len: usize,
        records: *mut u8,
        records_len: usize,
        stage: *mut usize,
        taken: *mut usize,
        call_fill: *mut usize,
        notice_fill: *mut usize,
        figure: *mut usize,
    ) -> u8;
    fn jsx_settings(
        text: *const u8,
        text_len: usize,
        state: *const u8,
        state_len: usize,
        target: *mut u8,
        target_len: usize,
        figure: *mut usize,
    ) -> u8;
    fn jsx_source(
        text: *const u8,
        text_len: usize,
        state: *const u8,
        state_len: usize,
        source: u8,
        target: *mut u8,
        target_len: usize,
        figure: *mut usize,
    ) -> u8;
    fn jsx_fills(state: *const u8, state_len: usize, calls: *mut usize, notices: *mut usize) -> u8;
    fn jsx_call_room(tape: *const u8, tape_len: usize) -> usize;
}

// In each call the lengths are those of the slices, a slice's pointer is never null, and no two borrows overlap where one is exclusive: that
// is what the entries ask of their caller.

pub fn open(text: &[u8], job: &[u8], state: &mut [u8], notices: &mut [u8]) -> Result<(), Refusal> {
    let mut figure = 0;
    let number = unsafe {
        jsx_open(
            text.as_ptr(),
            text.len(),
            job.as_ptr(),
            job.len(),
            state.as_mut_ptr(),
            state.len(),
            notices.as_mut_ptr(),
            notices.len(),
            &mut figure,
        )
    };
    Refusal::told(number, figure)
}

pub fn root(
    text: &[u8],
    state: &mut [u8; STATE_SIZE],
    tape: &[u8],
    calls: &mut [u8],
    notices: &mut [u8],
) -> Result<(), Refusal> {
    let mut figure = 0;
    let number = unsafe {
        jsx_root(
            text.as_ptr(),
            text.len(),
            state.as_mut_ptr(),
            state.len(),
            tape.as_ptr(),
            tape.len(),
            calls.as_mut_ptr(),
            calls.len(),
            notices.as_mut_ptr(),
            notices.len(),
            &mut figure,
        )
    };
    Refusal::told(number, figure)
}

// How many roots of the list were lowered, and what ended it.
pub fn roots(
    text: &[u8],
    state: &mut [u8; STATE_SIZE],
    roots: &[u8],
    calls: &mut [u8],
    notices: &mut [u8],
) -> (usize, Result<(), Refusal>) {
    let (mut taken, mut figure) = (0, 0);
    let number = unsafe {
        jsx_roots(
            text.as_ptr(),
            text.len(),
            state.as_mut_ptr(),
            state.len(),
            roots.as_ptr(),
            roots.len(),
            calls.as_mut_ptr(),
            calls.len(),
            notices.as_mut_ptr(),
            notices.len(),
            &mut taken,
            &mut figure,
        )
    };
    (taken, Refusal::told(number, figure))
}

// An entry that writes what a state says into a target.
type Writes =
    unsafe extern "C" fn(*const u8, usize, *const u8, usize, *mut u8, usize, *mut usize) -> u8;

// How many bytes were written.
fn written(
    entry: Writes,
    text: &[u8],
    state: &[u8; STATE_SIZE],
    target: &mut [u8],
) -> Result<usize, Refusal> {
    let mut figure = 0;
    let number = unsafe {
        entry(
            text.as_ptr(),
            text.len(),
            state.as_ptr(),
            state.len(),
            target.as_mut_ptr(),
            target.len(),
            &mut figure,
        )
    };
    Refusal::told(number, figure).map(|()| figure)
}

pub fn records(text: &[u8], state: &[u8; STATE_SIZE], target: &mut [u8]) -> Result<usize, Refusal> {
    written(jsx_records, text, state, target)
}

pub fn settings(
    text: &[u8],
    state: &[u8; STATE_SIZE],
    target: &mut [u8],
) -> Result<usize, Refusal> {
    written(jsx_settings, text, state, target)
}

// How many bytes the text of the source with this number has.
pub fn source(
    text: &[u8],
    state: &[u8; STATE_SIZE],
    source: u8,
    target: &mut [u8],
) -> Result<usize, Refusal> {
    let mut figure = 0;
    let number = unsafe {
        jsx_source(
            text.as_ptr(),
            text.len(),
            state.as_ptr(),
            state.len(),
            source,
            target.as_mut_ptr(),
            target.len(),
            &mut figure,
        )
    };
    Refusal::told(number, figure).map(|()| figure)
}

// How far the call target and the notice target are filled.
pub fn fills(state: &[u8; STATE_SIZE]) -> Result<(usize, usize), Refusal> {
    let (mut calls, mut notices) = (0, 0);
    let number = unsafe { jsx_fills(state.as_ptr(), state.len(), &mut calls, &mut notices) };
    Refusal::told(number, 0).map(|()| (calls, notices))
}

// How many bytes the calls of a root can take at the most.
pub fn call_room(tape: &[u8]) -> usize {
    unsafe { jsx_call_room(tape.as_ptr(), tape.len()) }
}

// How far a whole job came.
#[derive(Default)]
pub struct JobRun {
    pub stage: usize,
    pub taken: usize,
    pub call_fill: usize,
    pub notice_fill: usize,
    pub figure: usize,
}

pub fn job(
    text: &[u8],
    job: &[u8],
    roots: &[u8],
    calls: &mut [u8],
    notices: &mut [u8],
    records: &mut [u8],
) -> (JobRun, Result<(), Refusal>) {
    let mut run = JobRun::default();
    let number = unsafe {
        jsx_job(
            text.as_ptr(),
            text.len(),
            job.as_ptr(),
            job.len(),
            roots.as_ptr(),
            roots.len(),
            calls.as_mut_ptr(),
            calls.len(),
            notices.as_mut_ptr(),
            notices.len(),
            records.as_mut_ptr(),
            records.len(),
            &mut run.stage,
            &mut run.taken,
            &mut run.call_fill,
            &mut run.notice_fill,
            &mut run.figure,
        )
    };
    let answer = Refusal::told(number, run.figure);
    (run, answer)
}

#[cfg(test)]
mod tests {
    use super::*;

    // The wrapper lends room enough, so that openings are refused for want of it only here: 10 before 11, and nothing is written.
    #[test]
    fn openings_without_room() {
        let opened = |text: &[u8], state: usize, notices: usize| {
            let (mut state, mut notices) = (vec![0xee; state], vec![0xee; notices]);
            let job = [0x61, 8, 0, 0x62, 0, 0, 2, 0];
            let answer = open(text, &job, &mut state, &mut notices);
            let touched = state.iter().chain(&notices).any(|&byte| byte != 0xee);
            (answer, touched, notices)
        };
        let space = Err(Refusal::Space { needed: STATE_SIZE });
        for (text, state, notices, refusal) in [
            (&b"1x"[..], STATE_SIZE, 4, Err(Refusal::NoticeSpace { needed: 5 })),
            (b"1x", STATE_SIZE - 1, 4, space),
            (b"1x", STATE_SIZE - 1, 5, space),
            (b"hx", 0, 0, space),
            ("é".as_bytes(), 0, 0, Err(Refusal::PragmaByte { at: 0 })),
            ("é".as_bytes(), STATE_SIZE, 0, Err(Refusal::PragmaByte { at: 0 })),
            (b"1", 0, 0, Err(Refusal::SpanOutside { at: 3 })),
        ] {
            let (answer, touched, _) = opened(text, state, notices);
            assert_eq!((answer, touched), (refusal, false), "{text:?} {state} {notices}");
        }
        // exactly full, and none to write
        assert_eq!(opened(b"1x", STATE_SIZE, 5), (Ok(()), true, vec![0xc2, 0, 0, 2, 0]));
        assert_eq!(opened(b"1x", STATE_SIZE + 1, 6), (Ok(()), true, vec![0xc2, 0, 0, 2, 0, 0xee]));
        assert_eq!(opened(b"hx", STATE_SIZE, 0), (Ok(()), true, vec![]));
    }
}

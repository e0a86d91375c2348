//! The commands of rcap over texts in memory: safe calls of librcap.a.
//!
//! `lib/rcap.h` says what a call answers. A call takes up to a mebibyte of stack.

use std::fmt;
use std::ops::Range;

/// What a command answers with its texts.
#[derive(Clone, Copy, Debug, PartialEq, Eq)]
pub enum Status {
    /// The command is done.
    Done,
    /// The source has no derivation.
    NoDerivation,
    /// The place or the count that is given is none.
    NoCommand,
    /// The source has no tokens, or its tokens no tree.
    BadSyntax,
    /// The names of the source.
    BadNames,
    /// The derivation's text is not of its form.
    NoDerivationText,
    /// The derivation is not one of the source.
    NotValid,
    /// The schedule's text is not of its form.
    NoScheduleText,
    /// A limit is passed.
    PastALimit,
    /// Memory ran out, which says nothing of the texts.
    OutOfMemory,
    /// A text grew too long in the run.
    TextTooLong,
    /// The schedule has no two turns at the place.
    NoTurns,
}

impl Status {
    /// The status of this number. No call answers another one.
    fn of(number: u8) -> Status {
        match number {
            0 => Status::Done,
            1 => Status::NoDerivation,
            2 => Status::NoCommand,
            3 => Status::BadSyntax,
            4 => Status::BadNames,
            5 => Status::NoDerivationText,
            6 => Status::NotValid,
            7 => Status::NoScheduleText,
            8 => Status::PastALimit,
            11 => Status::OutOfMemory,
            12 => Status::TextTooLong,
            15 => Status::NoTurns,
            other => unreachable!("no command answers {other}"),
        }
    }
}

/// Which text of a call a place is in.
#[derive(Clone, Copy, Debug, PartialEq, Eq)]
pub enum Text {
    Source,
    Schedule,
}

/// The byte at which a line points, and the end of the piece of the text that starts there.
#[derive(Clone, Copy, Debug, PartialEq, Eq)]
pub struct Place {
    pub text: Text,
    /// One more than the number of line ends before it.
    pub line: usize,
    /// One more than the number of bytes since the last of them.
    pub column: usize,
    /// The number of bytes before it.
    pub offset: usize,
    /// One more than the number of line ends before the end.
    pub end_line: usize,
    /// One more than the number of bytes since the last of them.
    pub end_column: usize,
    /// The number of bytes up to the end.
    pub end_offset: usize,
}

impl Place {
    /// The bytes of the piece, by their offsets in the text.
    pub fn bytes(&self) -> Range<usize> {
        self.offset..self.end_offset
    }
}

/// What a command answers.
#[derive(Clone, Debug, PartialEq, Eq)]
pub struct Answer {
    pub status: Status,
    /// What it writes.
    pub out: Vec<u8>,
    /// Its line, which is empty if there is none.
    pub err: Vec<u8>,
    /// The place at which the line points, if it does.
    pub place: Option<Place>,
}

impl fmt::Display for Answer {
    /// The line of a refusal, or nothing.
    fn fmt(&self, formatter: &mut fmt::Formatter<'_>) -> fmt::Result {
        formatter.write_str(String::from_utf8_lossy(&self.err).trim_end())
    }
}

/// Looks for a derivation of the source, and writes it.
pub fn check(source: &[u8]) -> Answer {
    ask_source(calls::rcap_check, source)
}

/// Prints the source in one layout.
pub fn show(source: &[u8]) -> Answer {
    ask_source(calls::rcap_show, source)
}

/// Writes which entity of the source may send which message in any run, and what is never sent.
pub fn sends(source: &[u8]) -> Answer {
    ask_source(calls::rcap_sends, source)
}

/// Says whether a text is a derivation of the source.
pub fn judge(source: &[u8], derivation: &[u8]) -> Answer {
    ask_both(calls::rcap_judge, source, derivation)
}

/// Judges a derivation as `judge` does, and writes it in version 2 of its text.
pub fn upgrade(source: &[u8], derivation: &[u8]) -> Answer {
    ask_both(calls::rcap_upgrade, source, derivation)
}

/// Checks the source, and writes what it prints over the schedule.
pub fn run(source: &[u8], schedule: &[u8]) -> Answer {
    ask_both(calls::rcap_run, source, schedule)
}

/// Checks the source, and writes each access to a field over the schedule, with its clock.
pub fn trace(source: &[u8], schedule: &[u8]) -> Answer {
    ask_both(calls::rcap_trace, source, schedule)
}

/// Checks the source, and exchanges the turns of the schedule at a place and at the next, or says why they stay.
pub fn swap(source: &[u8], schedule: &[u8], place: u32) -> Answer {
    // SAFETY: see `ask`.
    ask(&|out, err, answer| unsafe {
        calls::rcap_swap(
            source.as_ptr(),
            source.len(),
            schedule.as_ptr(),
            schedule.len(),
            place,
            out.as_mut_ptr(),
            out.len(),
            err.as_mut_ptr(),
            err.len(),
            answer,
        )
    })
}

/// Writes the entities, fields, methods, slots and nodes of the source's core, with their places in it.
pub fn places(source: &[u8]) -> Answer {
    ask_source(calls::rcap_places, source)
}

/// Explains why the source is refused with `NoDerivation` or `BadNames`, or writes `accepted`. Both are `Done`; what `check` refuses
/// otherwise is refused as there.
pub fn explain(source: &[u8]) -> Answer {
    ask_source(calls::rcap_explain, source)
}

/// Checks the source, and writes each event of its run over the schedule, with its clock.
pub fn events(source: &[u8], schedule: &[u8]) -> Answer {
    ask_both(calls::rcap_events, source, schedule)
}

/// Checks the source, and writes the schedule that a seed chooses for it.
pub fn schedule(source: &[u8], seed: u64) -> Answer {
    ask_number(calls::rcap_schedule, source, seed)
}

/// Checks the source, and writes what it prints over the schedule that a seed chooses.
pub fn play(source: &[u8], seed: u64) -> Answer {
    ask_number(calls::rcap_play, source, seed)
}

/// Checks the source, and writes each different outcome of the plays of the seeds below a count once.
pub fn outcomes(source: &[u8], count: u32) -> Answer {
    ask_number(calls::rcap_outcomes, source, count)
}

/// Makes a call of a source and a number.
fn ask_number<N: Copy>(call: calls::OfNumber<N>, source: &[u8], number: N) -> Answer {
    // SAFETY: see `ask`.
    ask(&|out, err, answer| unsafe {
        call(
            source.as_ptr(),
            source.len(),
            number,
            out.as_mut_ptr(),
            out.len(),
            err.as_mut_ptr(),
            err.len(),
            answer,
        )
    })
}

/// Makes a call of a source.
fn ask_source(call: calls::OfSource, source: &[u8]) -> Answer {
    // SAFETY: see `ask`.
    ask(&|out, err, answer| unsafe {
        call(
            source.as_ptr(),
            source.len(),
            out.as_mut_ptr(),
            out.len(),
            err.as_mut_ptr(),
            err.len(),
            answer,
        )
    })
}

/// Makes a call of two texts.
fn ask_both(call: calls::OfBoth, source: &[u8], beside: &[u8]) -> Answer {
    // SAFETY: see `ask`.
    ask(&|out, err, answer| unsafe {
        call(
            source.as_ptr(),
            source.len(),
            beside.as_ptr(),
            beside.len(),
            out.as_mut_ptr(),
            out.len(),
            err.as_mut_ptr(),
            err.len(),
            answer,
        )
    })
}

/// The room that a text is given at first.
const FIRST_ROOM: usize = 4096;

/// Makes a call, and again if a text was longer than its buffer.
///
/// What `call` is given is safe to pass on: a pointer and a length are those of one live slice, which has no null pointer, and the three
/// that are written are borrowed for the call alone.
fn ask(call: &dyn Fn(&mut [u8], &mut [u8], &mut calls::Answer) -> u8) -> Answer {
    let (mut out, mut err) = (vec![0; FIRST_ROOM], vec![0; FIRST_ROOM]);
    loop {
        let mut answer = calls::Answer::default();
        let status = Status::of(call(&mut out, &mut err, &mut answer));
        if answer.out_length <= out.len() && answer.err_length <= err.len() {
            out.truncate(answer.out_length);
            err.truncate(answer.err_length);
            return Answer {
                status,
                out,
                err,
                place: place_of(&answer.place),
            };
        }
        out.resize(answer.out_length.max(FIRST_ROOM), 0);
        err.resize(answer.err_length.max(FIRST_ROOM), 0);
    }
}

fn place_of(place: &calls::Place) -> Option<Place> {
    let text = match place.text {
        1 => Text::Source,
        2 => Text::Schedule,
        _ => return None,
    };
    Some(Place {
        text,
        line: place.line,
        column: place.column,
        offset: place.offset,
        end_line: place.end_line,
        end_column: place.end_column,
        end_offset: place.end_offset,
    })
}

/// The declarations of `lib/rcap.h`.
mod calls {
    #[repr(C)]
    #[derive(Default)]
    pub struct Place {
        pub text: usize,
        pub line: usize,
        pub column: usize,
        pub offset: usize,
        pub end_line: usize,
        pub end_column: usize,
        pub end_offset: usize,
    }

    #[repr(C)]
    #[derive(Default)]
    pub struct Answer {
        pub out_length: usize,
        pub err_length: usize,
        pub place: Place,
    }

    pub type OfSource = unsafe extern "C" fn(*const u8, usize, *mut u8, usize, *mut u8, usize, *mut Answer) -> u8;

    pub type OfNumber<N> = unsafe extern "C" fn(*const u8, usize, N, *mut u8, usize, *mut u8, usize, *mut Answer) -> u8;

    pub type OfBoth =
        unsafe extern "C" fn(*const u8, usize, *const u8, usize, *mut u8, usize, *mut u8, usize, *mut Answer) -> u8;

    #[link(name = "rcap", kind = "static")]
    extern "C" {
        pub fn rcap_check(
            source: *const u8,
            source_length: usize,
            out: *mut u8,
            out_capacity: usize,
            err: *mut u8,
            err_capacity: usize,
            answer: *mut Answer,
        ) -> u8;
        pub fn rcap_show(
            source: *const u8,
            source_length: usize,
            out: *mut u8,
            out_capacity: usize,
            err: *mut u8,
            err_capacity: usize,
            answer: *mut Answer,
        ) -> u8;
        pub fn rcap_sends(
            source: *const u8,
            source_length: usize,
            out: *mut u8,
            out_capacity: usize,
            err: *mut u8,
            err_capacity: usize,
            answer: *mut Answer,
        ) -> u8;
        pub fn rcap_judge(
            source: *const u8,
            source_length: usize,
            derivation: *const u8,
            derivation_length: usize,
            out: *mut u8,
            out_capacity: usize,
            err: *mut u8,
            err_capacity: usize,
            answer: *mut Answer,
        ) -> u8;
        pub fn rcap_upgrade(
            source: *const u8,
            source_length: usize,
            derivation: *const u8,
            derivation_length: usize,
            out: *mut u8,
            out_capacity: usize,
            err: *mut u8,
            err_capacity: usize,
            answer: *mut Answer,
        ) -> u8;
        pub fn rcap_run(
            source: *const u8,
            source_length: usize,
            schedule: *const u8,
            schedule_length: usize,
            out: *mut u8,
            out_capacity: usize,
            err: *mut u8,
            err_capacity: usize,
            answer: *mut Answer,
        ) -> u8;
        pub fn rcap_trace(
            source: *const u8,
            source_length: usize,
            schedule: *const u8,
            schedule_length: usize,
            out: *mut u8,
            out_capacity: usize,
            err: *mut u8,
            err_capacity: usize,
            answer: *mut Answer,
        ) -> u8;
        pub fn rcap_swap(
            source: *const u8,
            source_length: usize,
            schedule: *const u8,
            schedule_length: usize,
            place: u32,
            out: *mut u8,
            out_capacity: usize,
            err: *mut u8,
            err_capacity: usize,
            answer: *mut Answer,
        ) -> u8;
        pub fn rcap_schedule(
            source: *const u8,
            source_length: usize,
            seed: u64,
            out: *mut u8,
            out_capacity: usize,
            err: *mut u8,
            err_capacity: usize,
            answer: *mut Answer,
        ) -> u8;
        pub fn rcap_play(
            source: *const u8,
            source_length: usize,
            seed: u64,
            out: *mut u8,
            out_capacity: usize,
            err: *mut u8,
            err_capacity: usize,
            answer: *mut Answer,
        ) -> u8;
        pub fn rcap_outcomes(
            source: *const u8,
            source_length: usize,
            count: u32,
            out: *mut u8,
            out_capacity: usize,
            err: *mut u8,
            err_capacity: usize,
            answer: *mut Answer,
        ) -> u8;
        pub fn rcap_places(
            source: *const u8,
            source_length: usize,
            out: *mut u8,
            out_capacity: usize,
            err: *mut u8,
            err_capacity: usize,
            answer: *mut Answer,
        ) -> u8;
        pub fn rcap_explain(
            source: *const u8,
            source_length: usize,
            out: *mut u8,
            out_capacity: usize,
            err: *mut u8,
            err_capacity: usize,
            answer: *mut Answer,
        ) -> u8;
        pub fn rcap_events(
            source: *const u8,
            source_length: usize,
            schedule: *const u8,
            schedule_length: usize,
            out: *mut u8,
            out_capacity: usize,
            err: *mut u8,
            err_capacity: usize,
            answer: *mut Answer,
        ) -> u8;
    }
}

#[cfg(test)]
mod tests {
    use super::*;

    const ACCEPTED: &[u8] = b"class C\nactor Main\n  new create(env: Env) =>\n    let a: C iso = C\n";
    const REFUSED: &[u8] =
        b"class C\nactor Main\n  new create(env: Env) =>\n    let a: C iso = C\n    let b: C iso = a\n";

    #[test]
    fn what_check_writes_judge_accepts() {
        let checked = check(ACCEPTED);
        assert_eq!(checked.status, Status::Done);
        assert!(checked.out.starts_with(b"rcap-derivation 1 4 7\n"));
        let judged = judge(ACCEPTED, &checked.out);
        assert_eq!((judged.status, judged.out), (Status::Done, b"accepted\n".to_vec()));
    }

    #[test]
    fn a_refusal_has_its_place() {
        let refused = check(REFUSED);
        assert_eq!(refused.status, Status::NoDerivation);
        assert_eq!(refused.to_string(), "source:5:5: no rule");
        assert_eq!(
            refused.place,
            Some(Place {
                text: Text::Source,
                line: 5,
                column: 5,
                offset: 70,
                end_line: 5,
                end_column: 21,
                end_offset: 86
            })
        );
        assert_eq!(&REFUSED[refused.place.unwrap().bytes()], b"let b: C iso = a");
    }

    #[test]
    fn a_refusal_is_explained() {
        let explained = explain(REFUSED);
        assert_eq!((explained.status, explained.place), (Status::Done, None));
        assert_eq!(
            String::from_utf8_lossy(&explained.out),
            "source:5:5: no rule\n\
             5 |     let b: C iso = a\n  |     ^^^^^^^^^^^^^^^^\n\
             node: the definition of `b`, C iso, in Main.create\n\
             part: the value `a` is C iso\n\
             rule define: the value has the form iso, an alias, and `b`, an iso, takes only iso^\n\
             hint: write `consume a`: it has the form iso^, and after it the name cannot be used\n"
        );
    }

    #[test]
    fn an_accepted_source_has_no_explanation() {
        let accepted = explain(ACCEPTED);
        assert_eq!((accepted.status, accepted.out), (Status::Done, b"accepted\n".to_vec()));
    }

    #[test]
    fn bad_syntax_is_refused_and_not_explained() {
        let refused = explain(b"");
        assert_eq!((refused.status, refused.out.len()), (Status::BadSyntax, 0));
        assert_eq!(refused.to_string(), "source:1:1: unexpected");
    }

    #[test]
    fn a_bad_word_is_in_the_schedule() {
        let refused = run(ACCEPTED, b"7 1*0 x");
        assert_eq!(refused.status, Status::NoScheduleText);
        assert_eq!(
            refused.place,
            Some(Place {
                text: Text::Schedule,
                line: 1,
                column: 7,
                offset: 6,
                end_line: 1,
                end_column: 8,
                end_offset: 7
            })
        );
    }

    #[test]
    fn an_empty_source_is_refused_at_its_end() {
        let refused = check(b"");
        assert_eq!(refused.status, Status::BadSyntax);
        assert_eq!(
            refused.place,
            Some(Place {
                text: Text::Source,
                line: 1,
                column: 1,
                offset: 0,
                end_line: 1,
                end_column: 1,
                end_offset: 0
            })
        );
    }
}

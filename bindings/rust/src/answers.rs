//! What the library answers, as results: outputs, refusals with their location, and texts.
use crate::error::{Error, ErrorKind};
use crate::places::location_and_message;
use crate::sys::{self, Answer, Open, Question};

/// Most refusals say no more than that.
const ROOM_OF_MESSAGE: usize = 256;

/// Asks what has no output.
pub(crate) fn ask(open: Option<&Open>, question: &Question) -> Result<Answer, Error> {
    ask_with(open, question, &mut [], &mut [0; ROOM_OF_MESSAGE])
}

/// The answer of a call that is done.
pub(crate) fn done(answer: Answer) -> Result<Answer, Error> {
    match answer.status {
        sys::DONE => Ok(answer),
        _ => Err(Error::of(answer)),
    }
}

/// The same, or nothing if the answer is no.
pub(crate) fn done_unless_no(answer: Answer) -> Result<Option<Answer>, Error> {
    match answer.status {
        sys::NO => Ok(None),
        _ => done(answer).map(Some),
    }
}

/// The output of a call that is done.
pub(crate) fn fill(open: Option<&Open>, question: &Question, room: usize) -> Result<(Vec<u8>, Answer), Error> {
    let (out, answer) = put(open, question, room)?;
    Ok((out, done(answer)?))
}

/// The error with the location and the message that this question's output has, if it has one.
pub(crate) fn found(error: Error, open: Option<&Open>, question: &Question) -> Error {
    let report = put(open, question, ROOM_OF_MESSAGE).ok().filter(|(_, answer)| answer.status == sys::DONE);
    error.found(report.and_then(|(report, _)| location_and_message(&report)))
}

/// Asks with an output of `room` bytes, and, if that is too short, once more with as many as it needs.
fn put(open: Option<&Open>, question: &Question, room: usize) -> Result<(Vec<u8>, Answer), Error> {
    let mut out = Vec::new();
    let mut room = room;
    loop {
        extend(&mut out, room)?;
        let answer = ask_with(open, question, &mut out, &mut [0; ROOM_OF_MESSAGE])?;
        if answer.status != sys::SHORT {
            out.truncate(answer.length);
            return Ok((out, answer));
        }
        room = answer.length;
    }
}

/// Asks, and if a refusal has a longer message, once more with as much room as that needs, if there is memory.
fn ask_with(open: Option<&Open>, question: &Question, out: &mut [u8], message: &mut [u8]) -> Result<Answer, Error> {
    let answer = sys::ask(open, question, out, message);
    match answer.status {
        sys::DONE | sys::SHORT | sys::NO => Ok(answer),
        sys::REFUSED if answer.length > message.len() => {
            let mut longer = Vec::new();
            match extend(&mut longer, answer.length) {
                Ok(()) => ask_with(open, question, out, &mut longer),
                Err(_) => Err(Error::of(answer)),
            }
        }
        sys::REFUSED => Err(Error::of(answer).found(location_and_message(&message[..answer.length]))),
        _ => Err(Error::of(answer)),
    }
}

/// Makes the room that long, if there is memory.
fn extend(room: &mut Vec<u8>, length: usize) -> Result<(), Error> {
    room.try_reserve_exact(length.saturating_sub(room.len())).map_err(|_| ErrorKind::Memory)?;
    room.resize(length, 0);
    Ok(())
}

/// A text of the library.
pub(crate) fn into_text(text: Vec<u8>) -> String {
    String::from_utf8(text).expect("texts of the library are UTF-8")
}

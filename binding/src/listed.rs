//! Text: the listing, one line of it, what the programs print and take, and a listing read back.

use crate::{
    ARRIVALS_ROOM, Answer, Arrivals, CODE_LINE_MOST, IMAGE_LIMIT, LISTING_ROOM, MOST_BYTES,
    MOST_ENTRIES, Mode, PRINTED_ROOM, Refusal, UNLISTED_ROOM, numbers,
};

/// All that a call writes, into a room of its own. The room that it begins with should be enough, so that the call works once; where it is
/// not, the answer tells how much is.
fn whole(begin: usize, call: impl Fn(&mut [u8]) -> Answer) -> Result<Vec<u8>, Refusal> {
    let mut room = vec![0; begin];
    let mut answer = call(&mut room).count();
    if let Err(Refusal::NoRoom { needed }) = answer {
        room.resize(needed, 0);
        answer = call(&mut room).count();
    }
    room.truncate(answer?);
    room.shrink_to_fit();
    Ok(room)
}

/// How many bytes were written. A room of [`LISTING_ROOM`](crate::LISTING_ROOM) bytes for each of the image is enough without arrivals, one of
/// [`ARRIVALS_ROOM`](crate::ARRIVALS_ROOM) with them.
#[inline]
pub fn listing_into(
    mode: Mode,
    image: &[u8],
    marks: &[u8],
    arrivals: Arrivals,
    room: &mut [u8],
) -> Result<usize, Refusal> {
    numbers::listing(mode as u32, image, marks, arrivals as u32, room).count()
}

/// The whole listing.
pub fn listing(
    mode: Mode,
    image: &[u8],
    marks: &[u8],
    arrivals: Arrivals,
) -> Result<Vec<u8>, Refusal> {
    let each = match arrivals {
        Arrivals::Chosen => ARRIVALS_ROOM,
        Arrivals::Declined => LISTING_ROOM,
    };
    whole(each * image.len().min(IMAGE_LIMIT), |room| {
        numbers::listing(mode as u32, image, marks, arrivals as u32, room)
    })
}

/// How many bytes were written. [`CODE_LINE_MOST`](crate::CODE_LINE_MOST) bytes are always enough.
#[inline]
pub fn code_line_into(
    mode: Mode,
    position: u32,
    bytes: &[u8],
    room: &mut [u8],
) -> Result<usize, Refusal> {
    numbers::code_line(mode as u32, position, bytes, room).count()
}

/// The `I` line of the instruction with which the bytes begin, at a position.
pub fn code_line(mode: Mode, position: u32, bytes: &[u8]) -> Result<Vec<u8>, Refusal> {
    whole(CODE_LINE_MOST, |room| {
        numbers::code_line(mode as u32, position, bytes, room)
    })
}

/// How many bytes were written. [`PRINTED_ROOM`](crate::PRINTED_ROOM) bytes are always enough.
#[inline]
pub fn list_text_into(text: &[u8], room: &mut [u8]) -> Result<usize, Refusal> {
    numbers::list_text(text, room).count()
}

/// All that the listing program prints of a text.
pub fn list_text(text: &[u8]) -> Vec<u8> {
    whole(PRINTED_ROOM, |room| numbers::list_text(text, room))
        .expect("refused for want of room alone")
}

/// What an input of the listing program holds: how many entries, and how many bytes.
#[derive(Clone, Copy, PartialEq, Eq, Debug)]
pub struct Input {
    pub entries: usize,
    pub bytes: usize,
}

/// An input of the listing program taken apart, into rooms for the longest: how many entries and bytes stand at their beginnings.
#[inline]
pub fn parse_into(
    text: &[u8],
    entries: &mut [u32; MOST_ENTRIES],
    image: &mut [u8; MOST_BYTES],
) -> Result<Input, Refusal> {
    let [count, bytes, ..] = numbers::parse(text, entries, image).told()?;
    Ok(Input {
        entries: count as usize,
        bytes: bytes as usize,
    })
}

/// The entries and the image of an input of the listing program.
pub fn parse(text: &[u8]) -> Result<(Vec<u32>, Vec<u8>), Refusal> {
    let mut entries = [0; MOST_ENTRIES];
    let mut image = [0; MOST_BYTES];
    let counts = parse_into(text, &mut entries, &mut image)?;
    Ok((
        entries[..counts.entries].to_vec(),
        image[..counts.bytes].to_vec(),
    ))
}

/// How many bytes were written.
#[inline]
pub fn report_text_into(text: &[u8], room: &mut [u8]) -> Result<usize, Refusal> {
    numbers::report_text(text, room).count()
}

/// All that the term report prints of a text.
pub fn report_text(text: &[u8]) -> Vec<u8> {
    // an image's line is hardly ever longer than its text
    whole(text.len() + 256, |room| numbers::report_text(text, room))
        .expect("refused for want of room alone")
}

/// How many lines were read. The image's bytes and marks, `length` of each, stand at the beginning of the two rooms.
#[inline]
pub fn read_back(
    mode: Mode,
    text: &[u8],
    length: u32,
    image: &mut [u8],
    marks: &mut [u8],
) -> Result<usize, Refusal> {
    numbers::read_back(mode as u32, text, length, image, marks).count()
}

/// How many bytes were written. [`UNLISTED_ROOM`](crate::UNLISTED_ROOM) bytes are always enough.
#[inline]
pub fn unlist_text_into(text: &[u8], length: u32, room: &mut [u8]) -> Result<usize, Refusal> {
    numbers::unlist_text(text, length, room).count()
}

/// All that `unlist` prints of a listing of an image of so many bytes.
pub fn unlist_text(text: &[u8], length: u32) -> Vec<u8> {
    whole(UNLISTED_ROOM, |room| {
        numbers::unlist_text(text, length, room)
    })
    .expect("refused for want of room alone")
}

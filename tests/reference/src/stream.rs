//! "Reading a marked stream"

/// The refusals of the reader of a marked stream.
#[derive(Clone, Copy, Debug, PartialEq, Eq)]
pub enum StreamRefusal {
    /// 8: "broken stream; the place of the offending FF". The first byte of
    /// the stream stands at place 0.
    Broken { place: usize },
    /// 9: "either output shorter than the input"
    OutputTooShort,
}

impl StreamRefusal {
    pub fn number(&self) -> u8 {
        match self {
            StreamRefusal::Broken { .. } => 8,
            StreamRefusal::OutputTooShort => 9,
        }
    }
}

/// "0 good or 1 damaged; the byte"
#[derive(Clone, Copy, Debug, PartialEq, Eq)]
pub enum StreamItem {
    Good(u8),
    Damaged(u8),
}

/// The item that begins the stream and the number of bytes it takes, or none
/// when the first byte is an offending FF.
///
/// "FF FF is good FF; FF 00 x is damaged x; any other byte but FF is a good
/// byte. FF before any other byte, or cut off at the end, is broken"
fn first_item(stream: &[u8]) -> Option<(StreamItem, usize)> {
    match stream {
        [0xFF, 0xFF, ..] => Some((StreamItem::Good(0xFF), 2)),
        [0xFF, 0x00, damaged, ..] => Some((StreamItem::Damaged(*damaged), 3)),
        [0xFF, ..] => None,
        [good, ..] => Some((StreamItem::Good(*good), 1)),
        [] => None,
    }
}

/// All items of the stream, or the place of the first offending FF.
///
/// "the first such FF is named"; "Empty input gives no items."
pub(crate) fn all_items(stream: &[u8]) -> Result<Vec<StreamItem>, usize> {
    let mut items = Vec::new();
    let mut place = 0;
    while place < stream.len() {
        match first_item(&stream[place..]) {
            Some((item, length)) => {
                items.push(item);
                place += length;
            }
            None => return Err(place),
        }
    }
    Ok(items)
}

/// "The items go as two lists (0 good or 1 damaged; the byte) into the fronts
/// of two lent buffers, and the answer is their number; the rest of both
/// buffers stays."
pub fn read_stream(
    stream: &[u8],
    first: &mut [u8],
    second: &mut [u8],
) -> Result<usize, StreamRefusal> {
    // "Lower numbers first, except that 9 comes before 8."
    if first.len() < stream.len() || second.len() < stream.len() {
        return Err(StreamRefusal::OutputTooShort);
    }
    let items = all_items(stream).map_err(|place| StreamRefusal::Broken { place })?;
    for (index, item) in items.iter().enumerate() {
        match item {
            StreamItem::Good(byte) => {
                first[index] = 0;
                second[index] = *byte;
            }
            StreamItem::Damaged(byte) => {
                first[index] = 1;
                second[index] = *byte;
            }
        }
    }
    Ok(items.len())
}

/// "A further call gives the front of a stream up to its first FF, as that
/// part of the caller's own bytes; it may be empty or all."
pub fn clean_front(stream: &[u8]) -> &[u8] {
    let length = stream
        .iter()
        .position(|byte| *byte == 0xFF)
        .unwrap_or(stream.len());
    &stream[..length]
}

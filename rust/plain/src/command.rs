//! The walk over the commands in a frame's contents.

use crate::refusal;

/// Commands from this byte on are short: they have no count and no data.
const FIRST_SHORT: u8 = 0x80;
const PROPRIETARY_WRAPPER: u8 = 0x76;
const SET_SCREEN_STATE: u8 = 0x13;
/// Screen type workout, screen value terminate.
const TERMINATE: [u8; 2] = [0x01, 0x02];

/// A command or reply item: its byte, and where its data stands in the contents.
#[derive(Clone, Copy, Debug, PartialEq, Eq)]
pub struct Found {
    pub byte: u8,
    pub start: usize,
    pub len: usize,
}

impl Found {
    pub(crate) fn end(self) -> usize {
        self.start + self.len
    }

    pub(crate) fn data(self, contents: &[u8]) -> &[u8] {
        &contents[self.start..self.end()]
    }
}

/// The n-th command at the top of `contents`, after all counts there are checked.
///
/// Refusals, in this order: 7, 15.
pub fn nth(contents: &[u8], n: usize) -> Result<Found, u8> {
    let mut nth = Err(refusal::NONE);
    let (mut at, mut index) = (0, 0);
    while at < contents.len() {
        let command = command_at(contents, at)?;
        if index == n {
            nth = Ok(command);
        }
        at = command.end();
        index += 1;
    }
    nth
}

/// How many commands there are at the top, or the index of the byte of the one
/// whose count is missing or runs beyond the end.
pub fn count(contents: &[u8]) -> Result<usize, usize> {
    let (mut at, mut count) = (0, 0);
    while at < contents.len() {
        at = command_at(contents, at).map_err(|_| at)?.end();
        count += 1;
    }
    Ok(count)
}

/// The n-th command in the wrapper that is the w-th command at the top; `start`
/// is counted in `contents`.
///
/// Refusals, in this order: 7, 15.
pub fn nth_inside(contents: &[u8], w: usize, n: usize) -> Result<Found, u8> {
    let wrapper = nth(contents, w)?;
    if !is_wrapper(wrapper.byte) {
        return Err(refusal::NONE);
    }
    let inner = nth(wrapper.data(contents), n)?;
    Ok(Found {
        start: wrapper.start + inner.start,
        ..inner
    })
}

/// A cursor on one list of commands: a frame's contents, or a wrapper's data.
#[derive(Clone, Copy, Debug)]
pub struct Cursor<'a> {
    list: &'a [u8],
    at: usize,
}

impl<'a> Cursor<'a> {
    /// A cursor at the first command.
    pub fn new(list: &'a [u8]) -> Self {
        Cursor::at(list, 0)
    }

    /// A cursor at any index; one past the end finds no command.
    pub fn at(list: &'a [u8], at: usize) -> Self {
        Cursor { list, at }
    }

    /// The index of the next command.
    pub fn index(self) -> usize {
        self.at
    }

    /// The command at the cursor, which then moves past it. All counts from there
    /// on are checked first, and a refusal leaves the cursor where it is.
    ///
    /// Refusals, in this order: 7, 15.
    pub fn step(&mut self) -> Result<Found, u8> {
        if self.at >= self.list.len() {
            return Err(refusal::NONE);
        }
        let command = command_at(self.list, self.at)?;
        let mut at = command.end();
        while at < self.list.len() {
            at = command_at(self.list, at)?.end();
        }
        self.at = command.end();
        Ok(command)
    }
}

/// Whether the contents are a sound list with a sound 76 wrapper that holds the
/// command to terminate the workout.
pub fn terminates(contents: &[u8]) -> bool {
    sound_with(contents, |byte, data| {
        byte == PROPRIETARY_WRAPPER
            && sound_with(data, |byte, data| {
                byte == SET_SCREEN_STATE && data == TERMINATE
            })
    })
}

/// What stands at `at` with a count after its byte.
pub(crate) fn counted_at(contents: &[u8], at: usize) -> Result<Found, u8> {
    let [byte, count, data @ ..] = &contents[at..] else {
        return Err(refusal::COUNT);
    };
    let len = usize::from(*count);
    if len > data.len() {
        return Err(refusal::COUNT);
    }
    Ok(Found {
        byte: *byte,
        start: at + 2,
        len,
    })
}

fn command_at(list: &[u8], at: usize) -> Result<Found, u8> {
    let byte = list[at];
    if byte < FIRST_SHORT {
        return counted_at(list, at);
    }
    Ok(Found {
        byte,
        start: at + 1,
        len: 0,
    })
}

/// Whether the data of a command at the top is a list of commands again.
pub fn is_wrapper(byte: u8) -> bool {
    matches!(byte, 0x1A | PROPRIETARY_WRAPPER | 0x77 | 0x7E | 0x7F)
}

/// Whether the list is sound and one of its commands, byte and data, passes `test`.
fn sound_with(list: &[u8], test: impl Fn(u8, &[u8]) -> bool) -> bool {
    let mut passed = false;
    let mut at = 0;
    while at < list.len() {
        let Ok(command) = command_at(list, at) else {
            return false;
        };
        passed = passed || test(command.byte, command.data(list));
        at = command.end();
    }
    passed
}

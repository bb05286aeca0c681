//! When a call is turned down.

/// The causes of document 01's table, then those that document 02 adds; each one's
/// number is its discriminant.
#[derive(Clone, Copy, Debug, PartialEq, Eq, PartialOrd, Ord)]
#[repr(u8)]
pub enum Cause {
    TooLong = 1,
    NoRecord = 2,
    KindOutOfOrder = 3,
    OneTooMany = 4,
    NameRepeated = 5,
    UnknownVertex = 6,
    NotAFormula = 7,
    TooDeep = 8,
    UnknownName = 9,
    NoVertex = 10,
    TooManyVariables = 11,
    BufferTooShort = 12,
    AigerShape = 13,
    AigerLimits = 14,
    CycleWrong = 15,
    NoNetlist = 16,
    TallyFull = 17,
    RunShape = 18,
    WrongWidth = 19,
    StrokesOutOfRange = 20,
    NoRate = 21,
    NotPrintable = 22,
    WaitingGates = 23,
    EdgesOutOfRange = 24,
    VerdictsWrong = 25,
    WidthOutOfRange = 26,
    NoMachine = 27,
    QueueFull = 28,
}

/// "Every refusal returns its number and a line"; line 0 where no line is at fault.
#[derive(Clone, Copy, Debug, PartialEq, Eq)]
pub struct Refusal {
    pub number: u8,
    pub line: u32,
}

impl Cause {
    pub fn at(self, line: u32) -> Refusal {
        Refusal {
            number: self as u8,
            line,
        }
    }

    pub fn no_line(self) -> Refusal {
        self.at(0)
    }
}

/// Turns a call down unless the text has at most `limit` bytes.
pub fn check_size(text: &[u8], limit: usize) -> Result<(), Refusal> {
    if text.len() > limit {
        return Err(Cause::TooLong.no_line());
    }
    Ok(())
}

/// Turns a call down unless the buffer has the `needed` length.
pub fn check_buffer<T>(buffer: &[T], needed: usize) -> Result<(), Refusal> {
    if buffer.len() < needed {
        return Err(Cause::BufferTooShort.no_line());
    }
    Ok(())
}

/// "Longer buffers keep their surplus."
pub fn fill<T: Copy>(buffer: &mut [T], contents: &[T]) -> Result<(), Refusal> {
    check_buffer(buffer, contents.len())?;
    buffer[..contents.len()].copy_from_slice(contents);
    Ok(())
}

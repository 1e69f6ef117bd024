//! Watches: standing queries.

use crate::handle::{Handle, Side};
use crate::reading::How;
use crate::{Reading, Refusal};

/// The most watches of a set.
const MOST_WATCHES: usize = 10_000;

#[repr(C)]
#[derive(Default)]
struct Told {
    count: u64,
    written: u64,
}

extern "C" {
    fn eb_watches(watches: *mut Handle) -> u32;
    fn eb_watch_set(watches: *mut Handle, how: *const How, number: u32, text: *const u8, text_len: usize, column: *mut u64) -> u32;
    fn eb_watch_remove(watches: *mut Handle, number: u32) -> u32;
    fn eb_watches_tell_line(
        watches: *mut Handle, how: *const How, line: *const u8, line_len: usize, numbers: *mut u32, numbers_len: usize, told: *mut Told,
    ) -> u32;
    fn eb_watches_tell_text(
        watches: *mut Handle, how: *const How, id: u64, text: *const u8, text_len: usize, numbers: *mut u32, numbers_len: usize, told: *mut Told,
    ) -> u32;
}

/// Watches: standing queries, each with a number; `tell` answers which of them a message matches. They are apart from every index, and
/// may go to another thread.
///
/// ```
/// use earlybird::{Refusal, Watches};
///
/// let mut watches = Watches::new()?;
/// watches.set(7, "train -late")?;
/// watches.set(3, "train OR bus")?;
/// assert_eq!(watches.tell(101, "Night train to Vienna")?, [3, 7]);
/// assert_eq!(watches.set(7, "bus"), Err(Refusal::WatchTaken));
/// watches.remove(3)?;
/// assert_eq!(watches.tell(102, "The train is late")?, []);
/// # Ok::<(), Refusal>(())
/// ```
pub struct Watches {
    side: Side,
    reading: Reading,
    numbers: Vec<u32>,
}

impl Watches {
    /// A set in which no watch is set.
    ///
    /// [`Refusal::NoMemory`].
    pub fn new() -> Result<Watches, Refusal> {
        Watches::with_reading(Reading::new())
    }

    /// The same, whose queries and messages are read as this says.
    ///
    /// [`Refusal::BadReading`] where they can't be.
    pub fn with_reading(reading: Reading) -> Result<Watches, Refusal> {
        let (reading, side) = (reading.checked()?, Side::closed());
        // SAFETY: a handle that no other call has.
        Refusal::of(unsafe { eb_watches(side.at()) }, 0)?;
        Ok(Watches { side, reading, numbers: vec![0; MOST_WATCHES] })
    }

    /// Sets the watch of this number to a query.
    ///
    /// [`Refusal::WatchTaken`] where a watch has the number, `WatchesFull` where 10,000 are set, and what
    /// [`Index::search`](crate::Index::search) is refused for; then the watches are as before.
    pub fn set(&mut self, number: u32, query: &str) -> Result<(), Refusal> {
        let mut column = 0;
        // SAFETY: a handle that no other call has, the bytes of a query, and a number.
        let done = unsafe { eb_watch_set(self.side.at(), &self.reading.how(), number, query.as_ptr(), query.len(), &mut column) };
        Refusal::of(done, column)
    }

    /// Removes the watch of this number.
    ///
    /// [`Refusal::NoWatch`] where none has it.
    pub fn remove(&mut self, number: u32) -> Result<(), Refusal> {
        // SAFETY: a handle that no other call has.
        Refusal::of(unsafe { eb_watch_remove(self.side.at(), number) }, 0)
    }

    /// The numbers of the watches that the message of an id and a text matches, rising.
    ///
    /// [`Refusal::TooLong`] or `NoMemory`.
    pub fn tell(&mut self, id: u64, text: &str) -> Result<Vec<u32>, Refusal> {
        let (at, how, mut told) = (self.side.at(), self.reading.how(), Told::default());
        let (numbers, len) = (self.numbers.as_mut_ptr(), self.numbers.len());
        // SAFETY: a handle that no other call has, the bytes of a text, and the room for the numbers.
        Refusal::of(unsafe { eb_watches_tell_text(at, &how, id, text.as_ptr(), text.len(), numbers, len, &mut told) }, 0)?;
        Ok(self.numbers[..told.written as usize].to_vec())
    }

    /// The same for the message of a line of JSON, without its end.
    ///
    /// What [`Index::add_line`](crate::Index::add_line) is refused for, but `Full`.
    pub fn tell_line(&mut self, line: &[u8]) -> Result<Vec<u32>, Refusal> {
        let (at, how, mut told) = (self.side.at(), self.reading.how(), Told::default());
        let (numbers, len) = (self.numbers.as_mut_ptr(), self.numbers.len());
        // SAFETY: a handle that no other call has, the bytes of a line, and the room for the numbers.
        Refusal::of(unsafe { eb_watches_tell_line(at, &how, line.as_ptr(), line.len(), numbers, len, &mut told) }, 0)?;
        Ok(self.numbers[..told.written as usize].to_vec())
    }
}

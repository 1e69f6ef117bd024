//! The index that threads share: one [`Writer`] adds while any number of [`Reader`]s search, each on a thread of its own, and a
//! [`Converter`] packs the segments that are closed. No call waits for another.

use crate::handle::{Handle, Room, Side};
use crate::reading::How;
use crate::{counted, images, refused, Answer, Count, Counted, ImageError, Reading, Refusal, Told};
use std::io::Read;
use std::sync::Arc;

extern "C" {
    fn eb_open(writer: *mut Handle, converter: *mut Handle, segments: u32, docs: u32, terms: u32) -> u32;
    fn eb_writer_add_line_with(writer: *mut Handle, how: *const How, line: *const u8, line_len: usize) -> u32;
    fn eb_writer_add_text_with(writer: *mut Handle, how: *const How, id: u64, text: *const u8, text_len: usize) -> u32;
    fn eb_reader(from: *mut Handle, reader: *mut Handle) -> u32;
    fn eb_reader_ask_line_with(
        reader: *mut Handle, how: *const How, line: *const u8, line_len: usize, ids: *mut u64, ids_len: usize, answer: *mut Told,
    ) -> u32;
    fn eb_reader_ask_text_with(
        reader: *mut Handle, how: *const How, k: u32, text: *const u8, text_len: usize, ids: *mut u64, ids_len: usize, answer: *mut Told,
    ) -> u32;
    fn eb_reader_count_text_with(
        reader: *mut Handle, how: *const How, text: *const u8, text_len: usize, start: u64, width: u64, buckets: *mut u64, buckets_len: usize,
        count: *mut Counted,
    ) -> u32;
    fn eb_reader_seen(reader: *mut Handle, seen: *mut u64) -> u32;
    fn eb_converter_convert(converter: *mut Handle, converted: *mut u32) -> u32;
}

impl Side {
    fn reader(&self, reading: &Arc<Reading>) -> Result<Reader, Refusal> {
        let made = Side::closed();
        // SAFETY: two handles that no other call has.
        Refusal::of(unsafe { eb_reader(self.at(), made.at()) }, 0)?;
        Ok(Reader { side: made, reading: Arc::clone(reading), room: Room::new() })
    }
}

/// Opens an index of `segments` segments, each with room for `docs` documents and `terms` distinct terms, with its one writer and its one
/// converter. Takes all memory that the index will ever take.
///
/// ```
/// let (mut writer, _converter) = earlybird::shared::open(12, 4096, 8192)?;
/// let mut reader = writer.reader()?;
/// writer.add(7, "Night train to Berlin")?;
/// assert_eq!(reader.search(10, "train")?.ids, [7]);
/// # Ok::<(), earlybird::Refusal>(())
/// ```
pub fn open(segments: u32, docs: u32, terms: u32) -> Result<(Writer, Converter), Refusal> {
    open_with(segments, docs, terms, Reading::new())
}

/// The same, whose lines and texts are read so, also by the readers.
///
/// [`Refusal::BadReading`] where they can't be.
///
/// ```
/// use earlybird::{shared, Reading};
/// let (mut writer, _converter) = shared::open_with(12, 4096, 8192, Reading::new().fields(["room"]))?;
/// writer.add_line(br#"{"id":7,"text":"dinner","room":"kitchen"}"#)?;
/// assert_eq!(writer.reader()?.search(10, "room:kitchen")?.ids, [7]);
/// # Ok::<(), earlybird::Refusal>(())
/// ```
pub fn open_with(segments: u32, docs: u32, terms: u32, reading: Reading) -> Result<(Writer, Converter), Refusal> {
    let reading = Arc::new(reading.checked()?);
    let (writer, converter) = (Side::closed(), Side::closed());
    // SAFETY: two handles that no other call has.
    Refusal::of(unsafe { eb_open(writer.at(), converter.at(), segments, docs, terms) }, 0)?;
    Ok((Writer { side: writer, reading, setting: [segments, docs, terms] }, Converter { side: converter }))
}

/// Opens an index as [`open_with`] does, of the setting and the messages of an image, as [`Index::load`](crate::Index::load) reads it.
///
/// ```
/// use earlybird::{shared, Reading, Saving};
/// # fn main() -> Result<(), earlybird::ImageError> {
/// let (writer, _converter) = shared::open(1, 1000, 1024)?;
/// let mut saving = Saving::new(writer, Vec::new())?;
/// saving.add(7, "hello world")?;
/// let (_, image) = saving.finish()?;
///
/// let (mut writer, _converter) = shared::load(&image[..], Reading::new())?;
/// assert_eq!(writer.reader()?.search(10, "hello")?.ids, [7]);
/// # Ok(())
/// # }
/// ```
pub fn load(reader: impl Read, reading: Reading) -> Result<(Writer, Converter), ImageError> {
    images::load_shared(reader, reading)
}

/// The one writer of an index. It may go to another thread, and can't be cloned.
///
/// ```
/// let (mut writer, _converter) = earlybird::shared::open(12, 4096, 8192)?;
/// std::thread::spawn(move || writer.add(7, "Night train")).join().unwrap()?;
/// # Ok::<(), earlybird::Refusal>(())
/// ```
pub struct Writer {
    pub(crate) side: Side,
    pub(crate) reading: Arc<Reading>,
    pub(crate) setting: [u32; 3],
}

impl Writer {
    /// Adds the message of an id and a text, after those before it.
    pub fn add(&mut self, id: u64, text: &str) -> Result<(), Refusal> {
        // SAFETY: a handle that no other call has, and the bytes of a text.
        Refusal::of(unsafe { eb_writer_add_text_with(self.side.at(), &self.reading.how(), id, text.as_ptr(), text.len()) }, 0)
    }

    /// Adds messages in order, and goes on after a refusal. Answers the refused ones: where each stands among the messages, from 0,
    /// and why. Each can be found before the next is taken.
    ///
    /// ```
    /// let (mut writer, _converter) = earlybird::shared::open(1, 1, 1024)?;
    /// assert_eq!(writer.add_all([(7, "hello"), (8, "again")]), [(1, earlybird::Refusal::Full)]);
    /// # Ok::<(), earlybird::Refusal>(())
    /// ```
    pub fn add_all<'a>(&mut self, messages: impl IntoIterator<Item = (u64, &'a str)>) -> Vec<(usize, Refusal)> {
        refused(messages, |id, text| self.add(id, text))
    }

    /// Adds the message of a line of JSON, without its end.
    pub fn add_line(&mut self, line: &[u8]) -> Result<(), Refusal> {
        // SAFETY: a handle that no other call has, and the bytes of a line.
        Refusal::of(unsafe { eb_writer_add_line_with(self.side.at(), &self.reading.how(), line.as_ptr(), line.len()) }, 0)
    }

    /// A reader that knows all that was added.
    pub fn reader(&mut self) -> Result<Reader, Refusal> {
        self.side.reader(&self.reading)
    }
}

/// A reader of an index. It may go to another thread; for a further thread clone it, or call [`Reader::try_clone`].
///
/// ```
/// let (mut writer, _converter) = earlybird::shared::open(12, 4096, 8192)?;
/// let reader = writer.reader()?;
/// for _ in 0..3 {
///     let mut reader = reader.clone();
///     std::thread::spawn(move || reader.search(10, "train"));
/// }
/// # Ok::<(), earlybird::Refusal>(())
/// ```
pub struct Reader {
    side: Side,
    reading: Arc<Reading>,
    room: Room,
}

impl Reader {
    /// Answers a query of which the newest `k` matches are wanted, 1 to 1,000, over the first `seen` documents of the writer: all
    /// that were accepted when the call counted them. They begin with all that this reader knew, and it knows them from then on.
    pub fn search(&mut self, k: u32, query: &str) -> Result<Answer, Refusal> {
        let (at, how) = (self.side.at(), self.reading.how());
        // SAFETY: a handle that no other call has, the bytes of a query, and the room for the ids.
        self.room.answer(|ids, len, told| unsafe { eb_reader_ask_text_with(at, &how, k, query.as_ptr(), query.len(), ids, len, told) })
    }

    /// Answers a query line, without its end, as [`Reader::search`] does.
    pub fn search_line(&mut self, line: &[u8]) -> Result<Answer, Refusal> {
        let (at, how) = (self.side.at(), self.reading.how());
        // SAFETY: a handle that no other call has, the bytes of a line, and the room for the ids.
        self.room.answer(|ids, len, told| unsafe { eb_reader_ask_line_with(at, &how, line.as_ptr(), line.len(), ids, len, told) })
    }

    /// Counts all messages that match a query, among the documents over which [`Reader::search`] would answer.
    pub fn count(&mut self, query: &str) -> Result<Count, Refusal> {
        self.histogram(query, 0, 1, 0)
    }

    /// Counts as [`Reader::count`] does, and how many of the matches have an id in each of `number` buckets, as
    /// [`Index::histogram`](crate::Index::histogram) does.
    ///
    /// ```
    /// # let (mut writer, _converter) = earlybird::shared::open(1, 10, 1024)?;
    /// # let mut reader = writer.reader()?;
    /// writer.add(130, "error")?;
    /// assert_eq!(reader.histogram("error", 100, 20, 2)?.buckets, [0, 1]);
    /// # Ok::<(), earlybird::Refusal>(())
    /// ```
    pub fn histogram(&mut self, query: &str, start: u64, width: u64, number: usize) -> Result<Count, Refusal> {
        let (at, how) = (self.side.at(), self.reading.how());
        // SAFETY: a handle that no other call has, the bytes of a query, and the room for the buckets.
        counted(number, |buckets, len, count| unsafe {
            eb_reader_count_text_with(at, &how, query.as_ptr(), query.len(), start, width, buckets, len, count)
        })
    }

    /// How many documents it knows.
    pub fn seen(&self) -> u64 {
        let mut seen = 0;
        // SAFETY: a handle that no other call has, and a number. It is a reader's, so the call isn't refused.
        unsafe { eb_reader_seen(self.side.at(), &mut seen) };
        seen
    }

    /// A reader that knows what this one knows.
    pub fn try_clone(&self) -> Result<Reader, Refusal> {
        self.side.reader(&self.reading)
    }
}

impl Clone for Reader {
    /// As [`Reader::try_clone`]; panics where there is no memory.
    fn clone(&self) -> Reader {
        self.try_clone().expect("memory for a reader")
    }
}

/// The one converter of an index, or of a generation of a feed. It may go to another thread.
///
/// ```
/// let (_writer, mut converter) = earlybird::shared::open(12, 4096, 8192)?;
/// assert_eq!(converter.convert()?, 0);
/// # Ok::<(), earlybird::Refusal>(())
/// ```
pub struct Converter {
    pub(crate) side: Side,
}

impl Converter {
    /// Packs the next segment that is closed, if there is one, and tells how many are packed then. No answer changes by it.
    pub fn convert(&mut self) -> Result<u32, Refusal> {
        let mut converted = 0;
        // SAFETY: a handle that no other call has, and a number.
        Refusal::of(unsafe { eb_converter_convert(self.side.at(), &mut converted) }, 0)?;
        Ok(converted)
    }
}

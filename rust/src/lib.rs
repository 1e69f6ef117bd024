//! A real-time search index for messages, in memory: a message can be found as soon as [`Index::add`] returns, and the newest
//! matches come first.
//!
//! ```
//! use earlybird::Index;
//!
//! let mut index = Index::new(12, 4096, 8192)?;
//! index.add(101, "Night train to Vienna leaves at nine")?;
//! index.add(102, "The train is late, again.")?;
//! assert_eq!(index.search(10, "train -late")?.ids, [101]);
//! # Ok::<(), earlybird::Refusal>(())
//! ```
//!
//! An index is gone with its process; [`Saving`] writes its image as it adds, and [`Index::load`] reads one.
//!
//! [`shared`] has an index that threads share: one thread adds while others search. [`stream`] has a feed that they share and that
//! never ends.
//!
//! Safe types over the calls of `include/earlybird.h`. What these ask of their caller is kept here: the words and the numbers are
//! private, belong together, and only the calls write them. What the calls answer is proved (`crates/eb_c`); these types are
//! tested.

pub use images::{Adds, ImageError, Saving};
pub use reading::Reading;
pub use watches::Watches;
use reading::How;
use std::fmt;

mod handle;
mod images;
mod reading;
pub mod shared;
pub mod stream;
mod watches;

/// The most ids of an answer.
const MOST_IDS: usize = 1000;

/// How much of a segment is used: its documents, its distinct terms, the words that these take, and the slices that are taken of
/// each of the four pools of postings.
///
/// ```
/// # let mut index = earlybird::Index::new(1, 10, 1024)?;
/// index.add(7, "hello world")?;
/// let last = index.last_segment();
/// assert_eq!((last.documents, last.terms), (1, 2));
/// # Ok::<(), earlybird::Refusal>(())
/// ```
#[repr(C)]
#[derive(Clone, Copy, Debug, Default, PartialEq, Eq)]
pub struct Segment {
    pub documents: u32,
    pub terms: u32,
    pub text: u32,
    pub pool0: u32,
    pub pool1: u32,
    pub pool2: u32,
    pub pool3: u32,
}

#[repr(C)]
#[derive(Clone, Default)]
struct Numbers {
    documents: u64,
    mark: u32,
    segments: u32,
    docs: u32,
    terms: u32,
    begun: u32,
    last: Segment,
}

#[repr(C)]
#[derive(Default)]
struct Told {
    seen: u64,
    count: u64,
    column: u64,
    written: u64,
}

#[repr(C)]
#[derive(Default)]
struct Counted {
    seen: u64,
    total: u64,
    column: u64,
}

extern "C" {
    fn eb_words(segments: u32, docs: u32, terms: u32) -> u64;
    fn eb_begin(words: *mut u64, words_len: usize, index: *mut Numbers, segments: u32, docs: u32, terms: u32) -> u32;
    fn eb_add_line_with(words: *mut u64, words_len: usize, index: *mut Numbers, how: *const How, line: *const u8, line_len: usize) -> u32;
    fn eb_add_text_with(
        words: *mut u64, words_len: usize, index: *mut Numbers, how: *const How, id: u64, text: *const u8, text_len: usize,
    ) -> u32;
    fn eb_ask_line_with(
        words: *const u64, words_len: usize, index: *const Numbers, how: *const How, line: *const u8, line_len: usize, ids: *mut u64, ids_len: usize,
        answer: *mut Told,
    ) -> u32;
    fn eb_ask_text_with(
        words: *const u64, words_len: usize, index: *const Numbers, how: *const How, k: u32, text: *const u8, text_len: usize, ids: *mut u64,
        ids_len: usize, answer: *mut Told,
    ) -> u32;
    fn eb_count_text_with(
        words: *const u64, words_len: usize, index: *const Numbers, how: *const How, text: *const u8, text_len: usize, start: u64, width: u64,
        buckets: *mut u64, buckets_len: usize, count: *mut Counted,
    ) -> u32;
    fn eb_documents(index: *const Numbers) -> u64;
    fn eb_segments(index: *const Numbers) -> u32;
    fn eb_last_segment(index: *const Numbers, last: *mut Segment);
}

/// Why a call did nothing: all is as before.
///
/// ```
/// use earlybird::{Index, Refusal};
///
/// let mut index = Index::new(1, 1, 1024)?;
/// index.add(7, "hello world")?;
/// assert_eq!(index.add(8, "hello again"), Err(Refusal::Full));
/// assert_eq!(index.search(10, "(hello"), Err(Refusal::BadQuery(7)));
/// assert_eq!(Refusal::BadQuery(7).to_string(), "bad query at 7");
/// # Ok::<(), Refusal>(())
/// ```
#[derive(Clone, Copy, Debug, PartialEq, Eq)]
pub enum Refusal {
    /// The line is no document line (it begins with `{`), or no query line (`?`, UTF-8), as the call wants one.
    BadLine,
    /// The line has more than 65,536 bytes.
    LongLine,
    /// The line isn't one JSON value.
    BadJson,
    /// The line has no whole number below 2^64 as its `id`, or no string as its `text`.
    BadDocument,
    /// The text has more than 1,024 words, or more than 16,384 bytes of them.
    TooLong,
    /// There is no room for the message: the last segment has none, and all segments are begun.
    Full,
    /// The number of matches that are wanted isn't one of 1 to 1,000.
    BadNumber,
    /// The query goes wrong at this column, or ends too early there. Columns count bytes, from 1.
    BadQuery(u64),
    /// More than 16 parentheses and minuses are open.
    QueryTooDeep,
    /// The query has more than 64 parts.
    QueryTooLarge,
    /// The text isn't UTF-8.
    BadText,
    /// There was no memory for the index, or to read a line, a text or a query.
    NoMemory,
    /// The numbers are no setting that an index or a feed can have.
    BadSetting,
    /// There are not as many words as the setting needs; no `Index` has this.
    BadSize,
    /// The numbers aren't those of an index; no `Index` has this.
    NotBegun,
    /// The handle is closed, or one of another kind; no type of this crate has this.
    BadHandle,
    /// A name of a [`Reading`] isn't one, or there are too many, or one stands twice.
    BadReading,
    /// A watch has the number of the one that is to be set.
    WatchTaken,
    /// No watch has the number, and 10,000 are set.
    WatchesFull,
    /// No watch has the number of the one that is to be removed.
    NoWatch,
}

impl Refusal {
    /// What a call answered; nothing where that is 0.
    fn of(number: u32, column: u64) -> Result<(), Refusal> {
        Err(match number {
            0 => return Ok(()),
            1 => Refusal::BadLine,
            2 => Refusal::LongLine,
            3 => Refusal::BadJson,
            4 => Refusal::BadDocument,
            5 => Refusal::TooLong,
            6 => Refusal::Full,
            7 => Refusal::BadNumber,
            8 => Refusal::BadQuery(column),
            9 => Refusal::QueryTooDeep,
            10 => Refusal::QueryTooLarge,
            11 => Refusal::BadText,
            12 => Refusal::NoMemory,
            13 => Refusal::BadSetting,
            14 => Refusal::BadSize,
            15 => Refusal::NotBegun,
            17 => Refusal::BadReading,
            18 => Refusal::WatchTaken,
            19 => Refusal::WatchesFull,
            20 => Refusal::NoWatch,
            _ => Refusal::BadHandle,
        })
    }
}

impl fmt::Display for Refusal {
    fn fmt(&self, f: &mut fmt::Formatter) -> fmt::Result {
        f.write_str(match self {
            Refusal::BadLine => "bad line",
            Refusal::LongLine => "long line",
            Refusal::BadJson => "bad json",
            Refusal::BadDocument => "bad document",
            Refusal::TooLong => "too long",
            Refusal::Full => "full",
            Refusal::BadNumber => "bad number",
            Refusal::BadQuery(column) => return write!(f, "bad query at {column}"),
            Refusal::QueryTooDeep => "query too deep",
            Refusal::QueryTooLarge => "query too large",
            Refusal::BadText => "bad text",
            Refusal::NoMemory => "no memory",
            Refusal::BadSetting => "bad setting",
            Refusal::BadSize => "bad size",
            Refusal::NotBegun => "not begun",
            Refusal::BadHandle => "bad handle",
            Refusal::BadReading => "bad reading",
            Refusal::WatchTaken => "watch taken",
            Refusal::WatchesFull => "watches full",
            Refusal::NoWatch => "no watch",
        })
    }
}

impl std::error::Error for Refusal {}

/// What a search found.
///
/// ```
/// # let mut index = earlybird::Index::new(1, 10, 1024)?;
/// index.add(7, "hello world")?;
/// index.add(8, "good night")?;
/// let answer = index.search(10, "hello")?;
/// assert_eq!((answer.seen, answer.ids), (2, vec![7]));
/// # Ok::<(), earlybird::Refusal>(())
/// ```
#[derive(Clone, Debug, PartialEq, Eq)]
pub struct Answer {
    /// How many documents were accepted: the answer is over all of them.
    pub seen: u64,
    /// The ids of the newest that match, newest first.
    pub ids: Vec<u64>,
}

impl IntoIterator for Answer {
    type Item = u64;
    type IntoIter = std::vec::IntoIter<u64>;

    /// The ids, newest first.
    ///
    /// ```
    /// # let mut index = earlybird::Index::new(1, 10, 1024)?;
    /// index.add(7, "hello world")?;
    /// for id in index.search(10, "hello")? {
    ///     assert_eq!(id, 7);
    /// }
    /// # Ok::<(), earlybird::Refusal>(())
    /// ```
    fn into_iter(self) -> Self::IntoIter {
        self.ids.into_iter()
    }
}

/// How many messages match.
#[derive(Clone, Debug, PartialEq, Eq)]
pub struct Count {
    /// How many documents were accepted: the count is over all of them.
    pub seen: u64,
    /// How many of them match.
    pub total: u64,
    /// How many of these have an id in each bucket.
    pub buckets: Vec<u64>,
}

/// The messages that an add refuses, and where each stands among them.
fn refused<'a>(
    messages: impl IntoIterator<Item = (u64, &'a str)>, mut add: impl FnMut(u64, &'a str) -> Result<(), Refusal>,
) -> Vec<(usize, Refusal)> {
    let added = messages.into_iter().map(|(id, text)| add(id, text)).enumerate();
    added.filter_map(|(at, done)| done.err().map(|why| (at, why))).collect()
}

/// An index. Any number of threads may search it at once; who adds to it has it alone.
///
/// ```
/// use earlybird::Index;
///
/// let mut index = Index::new(12, 4096, 8192)?;
/// index.add(7, "hello world")?;
/// std::thread::scope(|threads| {
///     for _ in 0..2 {
///         threads.spawn(|| assert_eq!(index.search(10, "hello").unwrap().ids, [7]));
///     }
/// });
/// # Ok::<(), earlybird::Refusal>(())
/// ```
#[derive(Clone)]
pub struct Index {
    words: Vec<u64>,
    numbers: Numbers,
    reading: Reading,
}

impl Index {
    /// An index of `segments` segments (1 to 64), each with room for `docs` messages (1 to 16,777,216) and `terms` distinct
    /// words (a power of two from 1,024 to 1,048,576). It takes all its memory at once: 58 MiB for 12, 4,096 and 8,192, at most 1 GiB.
    ///
    /// [`Refusal::BadSetting`] where no index can have these numbers, and [`Refusal::NoMemory`] where there is no room for it.
    pub fn new(segments: u32, docs: u32, terms: u32) -> Result<Index, Refusal> {
        Index::with_reading(segments, docs, terms, Reading::new())
    }

    /// The same, whose lines and texts are read so.
    ///
    /// [`Refusal::BadReading`] where they can't be, and what [`Index::new`] is refused for.
    pub fn with_reading(segments: u32, docs: u32, terms: u32, reading: Reading) -> Result<Index, Refusal> {
        let reading = reading.checked()?;
        let size = unsafe { eb_words(segments, docs, terms) } as usize;
        let mut words = Vec::new();
        words.try_reserve_exact(size).map_err(|_| Refusal::NoMemory)?;
        words.resize(size, 0);
        let mut index = Index { words, numbers: Numbers::default(), reading };
        let done = unsafe { eb_begin(index.words.as_mut_ptr(), size, &mut index.numbers, segments, docs, terms) };
        Refusal::of(done, 0)?;
        Ok(index)
    }

    /// Adds the message of a line of JSON, as `{"id":7,"text":"hello world"}`, without its end.
    ///
    /// [`Refusal::BadLine`], `LongLine`, `BadJson`, `BadDocument`, `TooLong`, `Full` or `NoMemory`; then nothing is changed.
    pub fn add_line(&mut self, line: &[u8]) -> Result<(), Refusal> {
        let how = self.reading.how();
        let done = unsafe { eb_add_line_with(self.words.as_mut_ptr(), self.words.len(), &mut self.numbers, &how, line.as_ptr(), line.len()) };
        Refusal::of(done, 0)
    }

    /// Adds the message of an id and a text; the next search finds it.
    ///
    /// [`Refusal::TooLong`], `Full` or `NoMemory`; then nothing is changed.
    pub fn add(&mut self, id: u64, text: &str) -> Result<(), Refusal> {
        let how = self.reading.how();
        let done = unsafe { eb_add_text_with(self.words.as_mut_ptr(), self.words.len(), &mut self.numbers, &how, id, text.as_ptr(), text.len()) };
        Refusal::of(done, 0)
    }

    /// Adds messages in order, and goes on after a refusal. Answers the refused ones: where each stands among the messages, from 0,
    /// and why.
    ///
    /// ```
    /// use earlybird::{Index, Refusal};
    ///
    /// let mut index = Index::new(1, 1, 1024)?;
    /// assert_eq!(index.add_all([(7, "hello"), (8, "again")]), [(1, Refusal::Full)]);
    /// # Ok::<(), Refusal>(())
    /// ```
    pub fn add_all<'a>(&mut self, messages: impl IntoIterator<Item = (u64, &'a str)>) -> Vec<(usize, Refusal)> {
        refused(messages, |id, text| self.add(id, text))
    }

    /// Answers a query line, as `?10 train`, without its end.
    ///
    /// [`Refusal::BadLine`], `LongLine`, and what [`Index::search`] is refused for; the column is counted in the line.
    pub fn search_line(&self, line: &[u8]) -> Result<Answer, Refusal> {
        let (mut ids, mut told) = (vec![0; MOST_IDS], Told::default());
        let done = unsafe {
            eb_ask_line_with(
                self.words.as_ptr(), self.words.len(), &self.numbers, &self.reading.how(), line.as_ptr(), line.len(), ids.as_mut_ptr(), ids.len(),
                &mut told,
            )
        };
        answer(done, ids, told)
    }

    /// Answers a query, as `train -late`, of which the newest `k` matches are wanted, 1 to 1,000.
    ///
    /// [`Refusal::BadNumber`], `BadQuery`, `QueryTooDeep`, `QueryTooLarge` or `NoMemory`.
    pub fn search(&self, k: u32, query: &str) -> Result<Answer, Refusal> {
        let (mut ids, mut told) = (vec![0; MOST_IDS.min(k as usize)], Told::default());
        let done = unsafe {
            eb_ask_text_with(
                self.words.as_ptr(), self.words.len(), &self.numbers, &self.reading.how(), k, query.as_ptr(), query.len(), ids.as_mut_ptr(),
                ids.len(), &mut told,
            )
        };
        answer(done, ids, told)
    }

    /// Counts all messages that match a query.
    ///
    /// Refused as [`Index::search`] is for its query.
    ///
    /// ```
    /// # let mut index = earlybird::Index::new(1, 10, 1024)?;
    /// index.add(7, "hello world")?;
    /// assert_eq!(index.count("hello OR again")?.total, 1);
    /// # Ok::<(), earlybird::Refusal>(())
    /// ```
    pub fn count(&self, query: &str) -> Result<Count, Refusal> {
        self.histogram(query, 0, 1, 0)
    }

    /// Counts all messages that match a query, and how many of them have an id in each of `number` buckets: bucket `i` has the ids
    /// from `start + i * width` on, `width` of them. Where ids are times, it is a histogram over time.
    ///
    /// [`Refusal::BadNumber`] where there are buckets and the width is 0, and as [`Index::search`] is for its query.
    ///
    /// ```
    /// # let mut index = earlybird::Index::new(1, 10, 1024)?;
    /// for id in [100, 130, 160] {
    ///     index.add(id, "error")?;
    /// }
    /// assert_eq!(index.histogram("error", 100, 60, 2)?.buckets, [2, 1]);
    /// # Ok::<(), earlybird::Refusal>(())
    /// ```
    pub fn histogram(&self, query: &str, start: u64, width: u64, number: usize) -> Result<Count, Refusal> {
        counted(number, |buckets, len, count| unsafe {
            let how = self.reading.how();
            eb_count_text_with(
                self.words.as_ptr(), self.words.len(), &self.numbers, &how, query.as_ptr(), query.len(), start, width, buckets, len, count,
            )
        })
    }

    /// Answers queries in order, each of them as [`Index::search`] does.
    ///
    /// ```
    /// # use earlybird::{Index, Refusal};
    /// # let index = Index::new(1, 1, 1024)?;
    /// let answers = index.search_all(10, ["hello", "(hello"]);
    /// assert_eq!(answers[1], Err(Refusal::BadQuery(7)));
    /// # Ok::<(), Refusal>(())
    /// ```
    pub fn search_all<'a>(&self, k: u32, queries: impl IntoIterator<Item = &'a str>) -> Vec<Result<Answer, Refusal>> {
        queries.into_iter().map(|query| self.search(k, query)).collect()
    }

    /// How many messages are accepted.
    pub fn documents(&self) -> u64 {
        unsafe { eb_documents(&self.numbers) }
    }

    /// How many segments are begun.
    pub fn segments(&self) -> u32 {
        unsafe { eb_segments(&self.numbers) }
    }

    /// How much of the last segment is used.
    pub fn last_segment(&self) -> Segment {
        let mut last = Segment::default();
        unsafe { eb_last_segment(&self.numbers, &mut last) };
        last
    }
}

fn answer(done: u32, mut ids: Vec<u64>, told: Told) -> Result<Answer, Refusal> {
    Refusal::of(done, told.column)?;
    ids.truncate(told.written as usize);
    Ok(Answer { seen: told.seen, ids })
}

/// The count of a call that is given the room for its buckets and what it tells.
fn counted(number: usize, count: impl FnOnce(*mut u64, usize, &mut Counted) -> u32) -> Result<Count, Refusal> {
    let (mut buckets, mut told) = (vec![0; number], Counted::default());
    let done = count(buckets.as_mut_ptr(), number, &mut told);
    Refusal::of(done, told.column)?;
    Ok(Count { seen: told.seen, total: told.total, buckets })
}

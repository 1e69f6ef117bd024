//! The feed that threads share, which never ends: one [`Leader`] adds, and any number of [`Follower`]s search the newest
//! generations, each on a thread of its own. No call waits for another.

use crate::handle::{Handle, Room, Side};
use crate::shared::Converter;
use crate::reading::How;
use crate::{counted, refused, Answer, Count, Counted, Reading, Refusal, Told};
use std::sync::Arc;

extern "C" {
    fn eb_stream_open(leader: *mut Handle, segments: u32, docs: u32, terms: u32, keep: u32) -> u32;
    fn eb_leader_add_line_with(leader: *mut Handle, how: *const How, line: *const u8, line_len: usize) -> u32;
    fn eb_leader_add_text_with(leader: *mut Handle, how: *const How, id: u64, text: *const u8, text_len: usize) -> u32;
    fn eb_leader_tell(leader: *mut Handle, told: *mut u32) -> u32;
    fn eb_leader_converter(leader: *mut Handle, converter: *mut Handle) -> u32;
    fn eb_spare_open(spare: *mut Handle, segments: u32, docs: u32, terms: u32) -> u32;
    fn eb_leader_lend(leader: *mut Handle, spare: *mut Handle) -> u32;
    fn eb_leader_released(leader: *mut Handle, released: *mut Handle) -> u32;
    fn eb_follower(leader: *mut Handle, follower: *mut Handle) -> u32;
    fn eb_follower_ask_line_with(
        follower: *mut Handle, how: *const How, line: *const u8, line_len: usize, ids: *mut u64, ids_len: usize, answer: *mut Told,
    ) -> u32;
    fn eb_follower_ask_text_with(
        follower: *mut Handle, how: *const How, k: u32, text: *const u8, text_len: usize, ids: *mut u64, ids_len: usize, answer: *mut Told,
    ) -> u32;
    fn eb_follower_count_text_with(
        follower: *mut Handle, how: *const How, text: *const u8, text_len: usize, start: u64, width: u64, buckets: *mut u64, buckets_len: usize,
        count: *mut Counted,
    ) -> u32;
    fn eb_follower_seen(follower: *mut Handle, seen: *mut u64) -> u32;
    fn eb_follower_held(follower: *mut Handle, held: *mut u64) -> u32;
}

/// Opens a feed that keeps `keep` generations, 2 to 64, each an index of `segments` segments with room for `docs` documents
/// and `terms` distinct terms, with its one leader. Takes memory for one generation.
///
/// ```
/// let mut leader = earlybird::stream::open(1, 2, 1024, 2)?;
/// let mut follower = leader.follower()?;
/// for id in 1..8 {
///     leader.add(id, "Night train to Berlin")?;
/// }
/// assert_eq!(follower.search(10, "train")?.ids, [7, 6, 5]);
/// # Ok::<(), earlybird::Refusal>(())
/// ```
pub fn open(segments: u32, docs: u32, terms: u32, keep: u32) -> Result<Leader, Refusal> {
    open_with(segments, docs, terms, keep, Reading::new())
}

/// The same, whose lines and texts are read so, also by the followers.
///
/// [`Refusal::BadReading`] where they can't be.
///
/// ```
/// use earlybird::{stream, Reading};
/// let mut leader = stream::open_with(1, 10, 1024, 2, Reading::new().pieces())?;
/// leader.add(7, "com.acme.billing failed")?;
/// assert_eq!(leader.follower()?.search(10, "acme")?.ids, [7]);
/// # Ok::<(), earlybird::Refusal>(())
/// ```
pub fn open_with(segments: u32, docs: u32, terms: u32, keep: u32, reading: Reading) -> Result<Leader, Refusal> {
    let reading = Arc::new(reading.checked()?);
    let side = Side::closed();
    // SAFETY: a handle that no other call has.
    Refusal::of(unsafe { eb_stream_open(side.at(), segments, docs, terms, keep) }, 0)?;
    Ok(Leader { side, reading })
}

/// The one leader of a feed. It may go to another thread, and can't be cloned. Its followers go on where it is dropped.
///
/// ```
/// let mut leader = earlybird::stream::open(12, 4096, 8192, 4)?;
/// let mut follower = leader.follower()?;
/// std::thread::spawn(move || leader.add(7, "Night train")).join().unwrap()?;
/// assert_eq!(follower.search(10, "train")?.seen, 1);
/// # Ok::<(), earlybird::Refusal>(())
/// ```
pub struct Leader {
    side: Side,
    reading: Arc<Reading>,
}

impl Leader {
    /// Adds the message of an id and a text, after those before it. Where the newest generation has no room for it, another is
    /// begun, the followers hear of it, and the oldest that the feed keeps is dropped: so it is never full.
    ///
    /// [`Refusal::TooLong`] or `NoMemory`; then nothing is changed.
    pub fn add(&mut self, id: u64, text: &str) -> Result<(), Refusal> {
        // SAFETY: a handle that no other call has, and the bytes of a text.
        Refusal::of(unsafe { eb_leader_add_text_with(self.side.at(), &self.reading.how(), id, text.as_ptr(), text.len()) }, 0)
    }

    /// Adds messages in order, and goes on after a refusal. Answers the refused ones: where each stands among the messages, from 0,
    /// and why. Each can be found before the next is taken.
    ///
    /// ```
    /// let mut leader = earlybird::stream::open(1, 10, 1024, 2)?;
    /// assert_eq!(leader.add_all([(7, "hello"), (8, "again")]), []);
    /// # Ok::<(), earlybird::Refusal>(())
    /// ```
    pub fn add_all<'a>(&mut self, messages: impl IntoIterator<Item = (u64, &'a str)>) -> Vec<(usize, Refusal)> {
        refused(messages, |id, text| self.add(id, text))
    }

    /// Adds the message of a line of JSON, without its end, as [`Leader::add`] does.
    pub fn add_line(&mut self, line: &[u8]) -> Result<(), Refusal> {
        // SAFETY: a handle that no other call has, and the bytes of a line.
        Refusal::of(unsafe { eb_leader_add_line_with(self.side.at(), &self.reading.how(), line.as_ptr(), line.len()) }, 0)
    }

    /// Tells each follower of the generations that were begun, as [`Leader::add`] does too. False where one couldn't hear of them,
    /// since it was just taking in earlier news, or since there was no memory. So a program that waits after an add calls
    /// this first, until it is true.
    pub fn tell(&mut self) -> bool {
        let mut told = 0;
        // SAFETY: a handle that no other call has, and a number. It is a leader's, so the call isn't refused.
        unsafe { eb_leader_tell(self.side.at(), &mut told) };
        told == 1
    }

    /// The converter of the newest generation; nothing where it was asked for since that was begun.
    pub fn converter(&mut self) -> Result<Option<Converter>, Refusal> {
        let mut made = Side::closed();
        // SAFETY: two handles that no other call has.
        Refusal::of(unsafe { eb_leader_converter(self.side.at(), made.at()) }, 0)?;
        Ok(if made.is_closed() { None } else { Some(Converter { side: made }) })
    }

    /// Takes an index that was opened ahead: the add that begins the next generation takes it, and opens none. Gives back the one that
    /// it was lent before and hasn't taken; so a program may lend before each add, and have another one opened where nothing
    /// comes back.
    ///
    /// [`Refusal::BadSetting`] where its setting isn't that of the feed, and it is dropped.
    pub fn lend(&mut self, mut spare: Spare) -> Result<Option<Spare>, Refusal> {
        // SAFETY: two handles that no other call has.
        Refusal::of(unsafe { eb_leader_lend(self.side.at(), spare.side.at()) }, 0)?;
        Ok(if spare.side.is_closed() { None } else { Some(spare) })
    }

    /// The generation that was dropped where the newest one was begun, if that was begun in an index that was lent; nothing where it
    /// was asked for since. So that [`Leader::add`] gives no memory back: who drops the generation does, on any thread, unless a
    /// follower or its converter holds it on. One that isn't asked for is dropped by the add that begins another generation.
    ///
    /// [`Refusal::NoMemory`], and this call lets it go.
    pub fn released(&mut self) -> Result<Option<Released>, Refusal> {
        let mut taken = Side::closed();
        // SAFETY: two handles that no other call has.
        Refusal::of(unsafe { eb_leader_released(self.side.at(), taken.at()) }, 0)?;
        Ok(if taken.is_closed() { None } else { Some(Released { _side: taken }) })
    }

    /// A follower that knows all that was added.
    pub fn follower(&mut self) -> Result<Follower, Refusal> {
        let made = Side::closed();
        // SAFETY: two handles that no other call has.
        Refusal::of(unsafe { eb_follower(self.side.at(), made.at()) }, 0)?;
        Ok(Follower { side: made, reading: Arc::clone(&self.reading), room: Room::new() })
    }
}

/// An index that is opened ahead, on any thread, for the next generation of a feed.
///
/// ```
/// use earlybird::stream::{open, Spare};
/// let mut leader = open(1, 2, 1024, 2)?;
/// let spare = std::thread::spawn(|| Spare::open(1, 2, 1024)).join().unwrap()?;
/// assert!(leader.lend(spare)?.is_none());
/// # Ok::<(), earlybird::Refusal>(())
/// ```
pub struct Spare {
    side: Side,
}

impl Spare {
    /// Opens an index of `segments` segments with room for `docs` documents and `terms` distinct terms. Takes memory for one generation.
    pub fn open(segments: u32, docs: u32, terms: u32) -> Result<Spare, Refusal> {
        let side = Side::closed();
        // SAFETY: a handle that no other call has.
        Refusal::of(unsafe { eb_spare_open(side.at(), segments, docs, terms) }, 0)?;
        Ok(Spare { side })
    }
}

/// A generation that a feed dropped. Its memory is given back where it is dropped, on any thread, unless a follower or its converter
/// holds it on.
///
/// ```
/// use earlybird::stream::{open, Spare};
/// let mut leader = open(1, 2, 1024, 2)?;
/// for id in 1..6 {
///     leader.lend(Spare::open(1, 2, 1024)?)?;
///     leader.add(id, "Night train")?;
/// }
/// let released = leader.released()?;
/// assert!(released.is_some());
/// std::thread::spawn(move || drop(released));
/// # Ok::<(), earlybird::Refusal>(())
/// ```
pub struct Released {
    _side: Side,
}

/// A follower of a feed. It may go to another thread; each further thread has one of its own, from the leader. It keeps the
/// generations alive that it holds, until it is asked again, or dropped.
///
/// ```
/// let mut leader = earlybird::stream::open(12, 4096, 8192, 4)?;
/// for _ in 0..3 {
///     let mut follower = leader.follower()?;
///     std::thread::spawn(move || follower.search(10, "train"));
/// }
/// # Ok::<(), earlybird::Refusal>(())
/// ```
pub struct Follower {
    side: Side,
    reading: Arc<Reading>,
    room: Room,
}

impl Follower {
    /// Answers a query of which the newest `k` matches are wanted, 1 to 1,000, over the newest generations that the feed keeps, up to
    /// the end of the first `seen` documents of the leader, once it took in what it had heard of. They begin with all that this
    /// follower knew, and it knows them from then on.
    pub fn search(&mut self, k: u32, query: &str) -> Result<Answer, Refusal> {
        let (at, how) = (self.side.at(), self.reading.how());
        // SAFETY: a handle that no other call has, the bytes of a query, and the room for the ids.
        self.room.answer(|ids, len, told| unsafe { eb_follower_ask_text_with(at, &how, k, query.as_ptr(), query.len(), ids, len, told) })
    }

    /// Answers a query line, without its end, as [`Follower::search`] does.
    pub fn search_line(&mut self, line: &[u8]) -> Result<Answer, Refusal> {
        let (at, how) = (self.side.at(), self.reading.how());
        // SAFETY: a handle that no other call has, the bytes of a line, and the room for the ids.
        self.room.answer(|ids, len, told| unsafe { eb_follower_ask_line_with(at, &how, line.as_ptr(), line.len(), ids, len, told) })
    }

    /// Counts all messages that match a query, among the documents over which [`Follower::search`] would answer.
    pub fn count(&mut self, query: &str) -> Result<Count, Refusal> {
        self.histogram(query, 0, 1, 0)
    }

    /// Counts as [`Follower::count`] does, and how many of the matches have an id in each of `number` buckets, as
    /// [`Index::histogram`](crate::Index::histogram) does.
    ///
    /// ```
    /// # let mut leader = earlybird::stream::open(1, 10, 1024, 2)?;
    /// # let mut follower = leader.follower()?;
    /// leader.add(130, "error")?;
    /// assert_eq!(follower.histogram("error", 100, 20, 2)?.buckets, [0, 1]);
    /// # Ok::<(), earlybird::Refusal>(())
    /// ```
    pub fn histogram(&mut self, query: &str, start: u64, width: u64, number: usize) -> Result<Count, Refusal> {
        let (at, how) = (self.side.at(), self.reading.how());
        // SAFETY: a handle that no other call has, the bytes of a query, and the room for the buckets.
        counted(number, |buckets, len, count| unsafe {
            eb_follower_count_text_with(at, &how, query.as_ptr(), query.len(), start, width, buckets, len, count)
        })
    }

    /// How many documents of the leader it knows.
    pub fn seen(&self) -> u64 {
        let mut seen = 0;
        // SAFETY: a handle that no other call has, and a number. It is a follower's, so the call isn't refused.
        unsafe { eb_follower_seen(self.side.at(), &mut seen) };
        seen
    }

    /// How many generations it holds.
    pub fn held(&self) -> u64 {
        let mut held = 0;
        // SAFETY: a handle that no other call has, and a number. It is a follower's, so the call isn't refused.
        unsafe { eb_follower_held(self.side.at(), &mut held) };
        held
    }
}

//! Images: a setting and messages in bytes, as `earlybird save` writes them and `earlybird load` reads them.

use crate::handle::Handle;
use crate::reading::How;
use crate::shared::{self, Converter, Writer};
use crate::{Index, Numbers, Reading, Refusal};
use std::io::{self, Read, Write};
use std::ops::Deref;
use std::{error, fmt};

/// The bytes of a head, and the most of a part.
const HEAD: usize = 20;
const LONGEST_PART: usize = 18_443;

/// Readers are read in pieces of this many bytes.
const PIECE: usize = 1 << 16;

/// What a call answers that begins with what it wants, or with the byte that ends an image.
const FULL: u32 = 6;
const BAD_IMAGE: u32 = 21;
const MORE_BYTES: u32 = 22;
const IMAGE_END: u32 = 24;

extern "C" {
    fn eb_image_head(segments: u32, docs: u32, terms: u32, head: *mut u8, head_len: usize) -> u32;
    fn eb_image_setting(bytes: *const u8, bytes_len: usize, segments: *mut u32, docs: *mut u32, terms: *mut u32) -> u32;
    fn eb_part_of_line(how: *const How, line: *const u8, line_len: usize, part: *mut u8, part_len: usize, len: *mut u64) -> u32;
    fn eb_part_of_text(how: *const How, id: u64, text: *const u8, text_len: usize, part: *mut u8, part_len: usize, len: *mut u64) -> u32;
    fn eb_add_part(words: *mut u64, words_len: usize, index: *mut Numbers, bytes: *const u8, bytes_len: usize, taken: *mut u64) -> u32;
    fn eb_writer_add_part(writer: *mut Handle, bytes: *const u8, bytes_len: usize, taken: *mut u64) -> u32;
}

/// Why an image wasn't read or written.
///
/// ```
/// use earlybird::{ImageError, Index, Reading};
///
/// let why = Index::load(&b"EBIMAGE2"[..], Reading::new()).err().unwrap();
/// assert!(matches!(why, ImageError::BadImage { at: 0, .. }));
/// assert_eq!(why.to_string(), "bad image at byte 0: no head of one begins there");
/// ```
#[derive(Debug)]
pub enum ImageError {
    /// Reading or writing failed.
    Io(io::Error),
    /// The bytes are no image; after this many of them something else begins, or they end.
    BadImage {
        /// How many bytes were taken before.
        at: u64,
        /// What is wrong there.
        why: &'static str,
    },
    /// The index that is to be saved has messages, which the image would lack.
    NotEmpty,
    /// A message, a setting or a reading was refused.
    Refused(Refusal),
}

impl fmt::Display for ImageError {
    fn fmt(&self, f: &mut fmt::Formatter) -> fmt::Result {
        match self {
            ImageError::Io(why) => write!(f, "{why}"),
            ImageError::BadImage { at, why } => write!(f, "bad image at byte {at}: {why}"),
            ImageError::NotEmpty => f.write_str("the index has messages already"),
            ImageError::Refused(why) => write!(f, "{why}"),
        }
    }
}

impl error::Error for ImageError {
    fn source(&self) -> Option<&(dyn error::Error + 'static)> {
        match self {
            ImageError::Io(why) => Some(why),
            ImageError::Refused(why) => Some(why),
            ImageError::BadImage { .. } | ImageError::NotEmpty => None,
        }
    }
}

impl From<io::Error> for ImageError {
    fn from(why: io::Error) -> ImageError {
        ImageError::Io(why)
    }
}

impl From<Refusal> for ImageError {
    fn from(why: Refusal) -> ImageError {
        ImageError::Refused(why)
    }
}

/// What has a setting and adds messages: an [`Index`], or a [`Writer`] of a shared one.
pub trait Adds: sealed::Adds {}

impl Adds for Index {}
impl Adds for Writer {}

mod sealed {
    use crate::{Reading, Refusal};

    pub trait Adds {
        fn setting(&self) -> [u32; 3];
        fn is_empty(&mut self) -> Result<bool, Refusal>;
        fn reading(&self) -> &Reading;

        /// Adds the message of the part with which the bytes begin: what the call answers, and how many bytes it took.
        fn add_part(&mut self, bytes: &[u8]) -> (u32, usize);
    }
}

impl sealed::Adds for Index {
    fn setting(&self) -> [u32; 3] {
        [self.numbers.segments, self.numbers.docs, self.numbers.terms]
    }

    fn is_empty(&mut self) -> Result<bool, Refusal> {
        Ok(self.documents() == 0)
    }

    fn reading(&self) -> &Reading {
        &self.reading
    }

    fn add_part(&mut self, bytes: &[u8]) -> (u32, usize) {
        let mut taken = 0;
        let done = unsafe {
            eb_add_part(self.words.as_mut_ptr(), self.words.len(), &mut self.numbers, bytes.as_ptr(), bytes.len(), &mut taken)
        };
        (done, taken as usize)
    }
}

impl sealed::Adds for Writer {
    fn setting(&self) -> [u32; 3] {
        self.setting
    }

    fn is_empty(&mut self) -> Result<bool, Refusal> {
        Ok(self.reader()?.seen() == 0)
    }

    fn reading(&self) -> &Reading {
        &self.reading
    }

    fn add_part(&mut self, bytes: &[u8]) -> (u32, usize) {
        let mut taken = 0;
        // SAFETY: a handle that no other call has, bytes, and a number.
        let done = unsafe { eb_writer_add_part(self.side.at(), bytes.as_ptr(), bytes.len(), &mut taken) };
        (done, taken as usize)
    }
}

/// An index whose image is written as it adds: the bytes that `earlybird save` writes. It is searched as the index is.
///
/// ```
/// use earlybird::{Index, Reading, Saving};
/// # fn main() -> Result<(), earlybird::ImageError> {
/// let mut saving = Saving::new(Index::new(12, 4096, 8192)?, Vec::new())?;
/// saving.add(101, "Night train to Vienna leaves at nine")?;
/// assert_eq!(saving.search(10, "train")?.ids, [101]);
/// let (_, image) = saving.finish()?;
///
/// let index = Index::load(&image[..], Reading::new())?;
/// assert_eq!(index.search(10, "train")?.ids, [101]);
/// # Ok(())
/// # }
/// ```
///
/// For an image in a file write another file, and rename it once it is whole, so that who reads it never finds half of one:
///
/// ```
/// use earlybird::{Index, Reading, Saving};
/// use std::fs::{self, File};
/// use std::io::BufWriter;
/// # fn main() -> Result<(), Box<dyn std::error::Error>> {
/// # let folder = std::env::temp_dir().join(format!("earlybird-{}", std::process::id()));
/// # fs::create_dir_all(&folder)?;
/// # let (path, beside) = (folder.join("messages.image"), folder.join("messages.new"));
/// let mut saving = Saving::new(Index::new(1, 1000, 1024)?, BufWriter::new(File::create(&beside)?))?;
/// saving.add(7, "hello world")?;
/// let (_, file) = saving.finish()?;
/// file.get_ref().sync_all()?;
/// fs::rename(&beside, &path)?;
///
/// assert_eq!(Index::load(File::open(&path)?, Reading::new())?.documents(), 1);
/// # fs::remove_dir_all(&folder)?;
/// # Ok(())
/// # }
/// ```
pub struct Saving<I: Adds, W: Write> {
    index: I,
    writer: W,
    part: Vec<u8>,
}

impl<I: Adds, W: Write> Saving<I, W> {
    /// Begins the image of an index without a message, and writes its head.
    ///
    /// [`ImageError::NotEmpty`] where the index has messages, [`ImageError::Io`], and [`Refusal::NoMemory`].
    pub fn new(mut index: I, mut writer: W) -> Result<Saving<I, W>, ImageError> {
        if !index.is_empty()? {
            return Err(ImageError::NotEmpty);
        }
        let (mut head, [segments, docs, terms]) = ([0; HEAD], index.setting());
        // SAFETY: the room for a head.
        Refusal::of(unsafe { eb_image_head(segments, docs, terms, head.as_mut_ptr(), HEAD) }, 0)?;
        writer.write_all(&head)?;
        Ok(Saving { index, writer, part: vec![0; LONGEST_PART] })
    }

    /// Adds the message of an id and a text, as [`Index::add`] does, and writes its part.
    ///
    /// [`ImageError::Refused`] as that is; then nothing is changed. [`ImageError::Io`] where the message is added and can't be written: give
    /// the image up.
    pub fn add(&mut self, id: u64, text: &str) -> Result<(), ImageError> {
        let how = self.index.reading().how();
        let (part, mut len) = (&mut self.part, 0);
        // SAFETY: the bytes of a text, the room for a part, and a number.
        let done = unsafe { eb_part_of_text(&how, id, text.as_ptr(), text.len(), part.as_mut_ptr(), part.len(), &mut len) };
        self.keep(done, len as usize)
    }

    /// Adds the message of a line of JSON, without its end, as [`Index::add_line`] does, and writes its part.
    ///
    /// [`ImageError::Refused`] and [`ImageError::Io`] as [`Saving::add`].
    pub fn add_line(&mut self, line: &[u8]) -> Result<(), ImageError> {
        let how = self.index.reading().how();
        let (part, mut len) = (&mut self.part, 0);
        // SAFETY: the bytes of a line, the room for a part, and a number.
        let done = unsafe { eb_part_of_line(&how, line.as_ptr(), line.len(), part.as_mut_ptr(), part.len(), &mut len) };
        self.keep(done, len as usize)
    }

    /// Adds the message of the part that a call made, which answered this, and writes it.
    fn keep(&mut self, done: u32, len: usize) -> Result<(), ImageError> {
        Refusal::of(done, 0)?;
        Refusal::of(self.index.add_part(&self.part[..len]).0, 0)?;
        Ok(self.writer.write_all(&self.part[..len])?)
    }

    /// Adds the messages of an image, whatever its setting, and writes their parts: so an image is gone on with, or has another setting.
    ///
    /// What [`Index::load`] is refused for; the messages before that are added and written.
    ///
    /// ```
    /// use earlybird::{Index, Saving};
    /// # fn main() -> Result<(), earlybird::ImageError> {
    /// let mut first = Saving::new(Index::new(1, 10, 1024)?, Vec::new())?;
    /// first.add(7, "hello world")?;
    /// let (_, image) = first.finish()?;
    ///
    /// let mut larger = Saving::new(Index::new(2, 1000, 2048)?, Vec::new())?;
    /// larger.add_image(&image[..])?;
    /// larger.add(8, "hello again")?;
    /// assert_eq!(larger.search(10, "hello")?.ids, [8, 7]);
    /// # Ok(())
    /// # }
    /// ```
    pub fn add_image(&mut self, reader: impl Read) -> Result<(), ImageError> {
        let mut pieces = Pieces::new(reader);
        pieces.setting()?;
        let writer = &mut self.writer;
        pieces.add_to(&mut self.index, |part| writer.write_all(part))
    }

    /// The index. What it adds by itself, the image lacks.
    pub fn index_mut(&mut self) -> &mut I {
        &mut self.index
    }

    /// Ends the image, and flushes what it is written to. An image that isn't ended is none.
    pub fn finish(mut self) -> Result<(I, W), ImageError> {
        self.writer.write_all(&[0])?;
        self.writer.flush()?;
        Ok((self.index, self.writer))
    }
}

impl<I: Adds, W: Write> Deref for Saving<I, W> {
    type Target = I;

    fn deref(&self) -> &I {
        &self.index
    }
}

/// The bytes of an image that were read and not yet taken: those of `bytes` from `from` on.
struct Pieces<R: Read> {
    reader: R,
    bytes: Vec<u8>,
    from: usize,
    taken: u64,
}

impl<R: Read> Pieces<R> {
    fn new(reader: R) -> Pieces<R> {
        Pieces { reader, bytes: Vec::new(), from: 0, taken: 0 }
    }

    fn bytes(&self) -> &[u8] {
        &self.bytes[self.from..]
    }

    fn take(&mut self, number: usize) {
        self.from += number;
        self.taken += number as u64;
    }

    /// Reads more behind them; whether there was more.
    fn more(&mut self) -> io::Result<bool> {
        self.bytes.drain(..self.from);
        self.from = 0;
        let reader = self.reader.by_ref();
        Ok(reader.take(PIECE as u64).read_to_end(&mut self.bytes)? > 0)
    }

    fn wrong(&self, why: &'static str) -> ImageError {
        ImageError::BadImage { at: self.taken, why }
    }

    /// More, or the image is cut there.
    fn need(&mut self) -> Result<(), ImageError> {
        if self.more()? { Ok(()) } else { Err(self.wrong("the bytes end within it")) }
    }

    /// Takes the head, and answers its setting.
    fn setting(&mut self) -> Result<[u32; 3], ImageError> {
        loop {
            let (bytes, mut numbers) = (self.bytes(), [0; 3]);
            let [segments, docs, terms] = &mut numbers;
            // SAFETY: bytes, and three numbers.
            match unsafe { eb_image_setting(bytes.as_ptr(), bytes.len(), segments, docs, terms) } {
                MORE_BYTES => self.need()?,
                BAD_IMAGE => return Err(self.wrong("no head of one begins there")),
                done => {
                    Refusal::of(done, 0)?;
                    self.take(HEAD);
                    return Ok(numbers);
                }
            }
        }
    }

    /// Adds the messages after the head, whose parts go to `keep` too.
    fn add_to(&mut self, index: &mut impl Adds, mut keep: impl FnMut(&[u8]) -> io::Result<()>) -> Result<(), ImageError> {
        loop {
            let bytes = self.bytes();
            match index.add_part(bytes) {
                (0, taken) => {
                    keep(&bytes[..taken])?;
                    self.take(taken);
                }
                (MORE_BYTES, _) => self.need()?,
                (IMAGE_END, _) => break,
                (BAD_IMAGE, _) => return Err(self.wrong("no part of one begins there")),
                (FULL, _) => return Err(self.wrong("the index has no room for a further message")),
                (done, _) => return Ok(Refusal::of(done, 0)?),
            }
        }
        self.take(1);
        if self.bytes().is_empty() && !self.more()? { Ok(()) } else { Err(self.wrong("the bytes go on behind it")) }
    }
}

impl Index {
    /// An index of the setting and the messages of an image: bytes that [`Saving`] wrote, or `earlybird save`. They are read in pieces, to
    /// their end, and texts and queries are read by the index as `reading` says: as those of the image were, since it doesn't tell.
    ///
    /// [`ImageError::BadImage`] where they are no image; it takes the memory of the setting of its head, at most 1 GiB. [`ImageError::Io`]
    /// where they can't be read, and [`ImageError::Refused`] as [`Index::with_reading`] is.
    pub fn load(reader: impl Read, reading: Reading) -> Result<Index, ImageError> {
        let mut pieces = Pieces::new(reader);
        let [segments, docs, terms] = pieces.setting()?;
        let mut index = Index::with_reading(segments, docs, terms, reading)?;
        pieces.add_to(&mut index, |_| Ok(()))?;
        Ok(index)
    }
}

/// A shared index of an image.
pub(crate) fn load_shared(reader: impl Read, reading: Reading) -> Result<(Writer, Converter), ImageError> {
    let mut pieces = Pieces::new(reader);
    let [segments, docs, terms] = pieces.setting()?;
    let (mut writer, converter) = shared::open_with(segments, docs, terms, reading)?;
    pieces.add_to(&mut writer, |_| Ok(()))?;
    Ok((writer, converter))
}

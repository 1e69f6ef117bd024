//! How lines and texts are read.

use crate::Refusal;
use std::marker::PhantomData;

/// How lines and texts are read, as the options `--fields`, `--words`, `--id` and `--text` of `earlybird run` say it.
///
/// ```
/// use earlybird::{Index, Reading, Refusal};
///
/// let how = Reading::new().fields(["user", "room"]).pieces();
/// let mut index = Index::with_reading(12, 4096, 8192, how)?;
/// index.add_line(br#"{"id":7,"text":"com.acme.billing failed","user":"Ann"}"#)?;
/// assert_eq!(index.search(10, "user:ann billing")?.ids, [7]);
/// assert_eq!(Index::with_reading(1, 10, 1024, Reading::new().fields(["User"])).err(), Some(Refusal::BadReading));
/// # Ok::<(), Refusal>(())
/// ```
#[derive(Clone, Debug, Default, PartialEq, Eq)]
pub struct Reading {
    fields: String,
    id: String,
    text: String,
    pieces: bool,
    /// A name is empty, or has a comma, so that what the library is given says something else.
    broken: bool,
}

impl Reading {
    /// As where there is no option: no field, each word as it stands, the members `id` and `text`.
    pub fn new() -> Reading {
        Reading::default()
    }

    /// The members of a line of JSON by whose values a query finds messages, as `room:kitchen`: one to eight names, each of one to 32 of
    /// `a` to `z`, `0` to `9` and `_`, none of them `since`, and none twice. Where there is none, there is no field.
    pub fn fields<'a>(mut self, names: impl IntoIterator<Item = &'a str>) -> Reading {
        // More than eight are refused, however many.
        let names: Vec<&str> = names.into_iter().take(9).collect();
        self.broken |= names.iter().any(|name| name.is_empty() || name.contains(','));
        self.fields = names.join(",");
        self
    }

    /// The parts of a word between its marks are words, as `acme` in `com.acme.billing`.
    pub fn pieces(mut self) -> Reading {
        self.pieces = true;
        self
    }

    /// The name of the member that is the id, a number or a string of its digits. It isn't empty.
    pub fn id(mut self, name: &str) -> Reading {
        self.broken |= name.is_empty();
        self.id = name.to_string();
        self
    }

    /// The name of the member that is the text. It isn't empty.
    pub fn text(mut self, name: &str) -> Reading {
        self.broken |= name.is_empty();
        self.text = name.to_string();
        self
    }

    /// This, where an index can read so; else [`Refusal::BadReading`].
    pub(crate) fn checked(self) -> Result<Reading, Refusal> {
        if self.broken {
            return Err(Refusal::BadReading);
        }
        // SAFETY: the bytes of three names.
        Refusal::of(unsafe { eb_check_reading(&self.how()) }, 0)?;
        Ok(self)
    }

    pub(crate) fn how(&self) -> How<'_> {
        How {
            fields: self.fields.as_ptr(),
            fields_len: self.fields.len(),
            id: self.id.as_ptr(),
            id_len: self.id.len(),
            text: self.text.as_ptr(),
            text_len: self.text.len(),
            words: self.pieces.into(),
            of: PhantomData,
        }
    }
}

/// The same for the library.
#[repr(C)]
pub(crate) struct How<'a> {
    fields: *const u8,
    fields_len: usize,
    id: *const u8,
    id_len: usize,
    text: *const u8,
    text_len: usize,
    words: u32,
    of: PhantomData<&'a Reading>,
}

extern "C" {
    fn eb_check_reading(how: *const How) -> u32;
}

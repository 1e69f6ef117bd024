//! Images: the bytes that are written, what is read again, and what no image is.

use earlybird::{shared, ImageError, Index, Reading, Refusal, Saving};
use std::io::{self, Read, Write};

const HEAD: &[u8] = b"EBIMAGE1\0\0\0\x01\0\0\0\x02\0\0\x04\0";
const TRAIN: &[u8] = b"\x01\0\0\0\0\0\0\0\x07\0\x02\0\x05night\0\x05train";
const EMPTY: &[u8] = b"\x01\0\0\0\0\0\0\0\x08\0\0";

fn joined(parts: &[&[u8]]) -> Vec<u8> {
    parts.concat()
}

fn refused(done: Result<(), ImageError>) -> Option<Refusal> {
    match done {
        Err(ImageError::Refused(why)) => Some(why),
        _ => None,
    }
}

/// Gives at most so many bytes at a time, and is interrupted now and then.
struct Slow<'a>(&'a [u8], usize, bool);

impl Read for Slow<'_> {
    fn read(&mut self, buffer: &mut [u8]) -> io::Result<usize> {
        self.2 = !self.2;
        if self.2 {
            return Err(io::ErrorKind::Interrupted.into());
        }
        let most = self.1.min(buffer.len());
        self.0.read(&mut buffer[..most])
    }
}

/// Takes this many bytes, and then fails.
struct Small(usize);

impl Write for Small {
    fn write(&mut self, bytes: &[u8]) -> io::Result<usize> {
        if self.0 == 0 {
            return Err(io::ErrorKind::WriteZero.into());
        }
        let number = bytes.len().min(self.0);
        self.0 -= number;
        Ok(number)
    }

    fn flush(&mut self) -> io::Result<()> {
        Ok(())
    }
}

#[test]
fn the_bytes() {
    let mut saving = Saving::new(Index::new(1, 2, 1024).unwrap(), Vec::new()).unwrap();
    saving.add(7, "Night train").unwrap();
    assert_eq!(refused(saving.add_line(b"{")), Some(Refusal::BadJson));
    saving.add_line(br#"{"id":8,"text":""}"#).unwrap();
    assert_eq!(refused(saving.add(9, "late")), Some(Refusal::Full));
    assert_eq!(saving.documents(), 2);
    let (index, image) = saving.finish().unwrap();
    assert_eq!(image, joined(&[HEAD, TRAIN, EMPTY, b"\0"]));
    assert!(matches!(Saving::new(index, Vec::new()), Err(ImageError::NotEmpty)));

    let (mut writer, _converter) = shared::open(1, 2, 1024).unwrap();
    let mut reader = writer.reader().unwrap();
    let mut saving = Saving::new(writer, Vec::new()).unwrap();
    saving.add(7, "Night train").unwrap();
    assert_eq!(reader.search(10, "train").unwrap().ids, [7]);
    let (mut writer, image) = saving.finish().unwrap();
    assert_eq!(image, joined(&[HEAD, TRAIN, b"\0"]));
    writer.add(8, "").unwrap();
    assert!(matches!(Saving::new(writer, Vec::new()), Err(ImageError::NotEmpty)));
}

#[test]
fn what_is_loaded_is_found_in_any_pieces() {
    let mut saving = Saving::new(Index::new(2, 100, 1024).unwrap(), Vec::new()).unwrap();
    for id in 0..150 {
        saving.add(id, &format!("train {id} {}", "on".repeat(1500))).unwrap();
    }
    let (_, image) = saving.finish().unwrap();
    assert!(image.len() > 400_000);
    for most in [1, 17, 4096, usize::MAX] {
        let index = Index::load(Slow(&image, most, false), Reading::new()).unwrap();
        assert_eq!((index.documents(), index.segments()), (150, 2));
        assert_eq!(index.search(2, "train").unwrap().ids, [149, 148]);
        assert_eq!(index.search(2, "train 33").unwrap().ids, [33]);
    }
    let (mut writer, _converter) = shared::load(&image[..], Reading::new()).unwrap();
    writer.add(999, "train").unwrap();
    assert_eq!(writer.reader().unwrap().search(2, "train").unwrap().ids, [999, 149]);
}

#[test]
fn a_reading_is_given_again() {
    let how = Reading::new().fields(["room"]).pieces().id("n").text("said");
    let mut saving = Saving::new(Index::with_reading(1, 10, 1024, how.clone()).unwrap(), Vec::new()).unwrap();
    saving.add_line(br#"{"n":7,"said":"com.acme failed","room":"kitchen"}"#).unwrap();
    let (_, image) = saving.finish().unwrap();
    let mut index = Index::load(&image[..], how).unwrap();
    assert_eq!(index.search(10, "room:kitchen acme").unwrap().ids, [7]);
    index.add_line(br#"{"n":8,"said":"acme"}"#).unwrap();
    let bad = Index::load(&image[..], Reading::new().fields(["Room"]));
    assert!(matches!(bad, Err(ImageError::Refused(Refusal::BadReading))));
}

#[test]
fn what_is_no_image() {
    let whole = joined(&[HEAD, TRAIN, EMPTY, b"\0"]);
    let mut wrong: Vec<(u64, Vec<u8>)> = (0..20).map(|cut| (0, whole[..cut].to_vec())).collect();
    wrong.extend((20..20 + TRAIN.len()).map(|cut| (20, whole[..cut].to_vec())));
    wrong.push((whole.len() as u64, joined(&[&whole, b"\n"])));
    wrong.push((0, joined(&[b"F", &whole[1..]])));
    wrong.push((20, joined(&[HEAD, b"\x02"])));
    wrong.push((20, joined(&[HEAD, &TRAIN[..9], b"\x04\x01", &[0; 3000]])));
    wrong.push((20 + 2 * TRAIN.len() as u64, joined(&[HEAD, TRAIN, TRAIN, TRAIN, b"\0"])));
    for (place, bytes) in wrong {
        let places = [Index::load(&bytes[..], Reading::new()).err(), shared::load(&bytes[..], Reading::new()).err()];
        for why in places {
            assert!(matches!(why, Some(ImageError::BadImage { at, .. }) if at == place), "{why:?} at {place}");
        }
    }
}

#[test]
fn faults_of_readers_and_writers_are_told() {
    struct Broken;
    impl Read for Broken {
        fn read(&mut self, _: &mut [u8]) -> io::Result<usize> {
            Err(io::ErrorKind::ConnectionReset.into())
        }
    }
    let why = Index::load(HEAD.chain(Broken), Reading::new()).err();
    assert!(matches!(why, Some(ImageError::Io(why)) if why.kind() == io::ErrorKind::ConnectionReset));
    assert!(matches!(Saving::new(Index::new(1, 2, 1024).unwrap(), Small(19)), Err(ImageError::Io(_))));
    let mut saving = Saving::new(Index::new(1, 2, 1024).unwrap(), Small(20 + TRAIN.len())).unwrap();
    saving.add(7, "night train").unwrap();
    assert!(matches!(saving.add(8, ""), Err(ImageError::Io(_))));
    assert!(matches!(saving.finish(), Err(ImageError::Io(_))));
}

#[test]
fn an_image_is_gone_on_with() {
    let image = joined(&[HEAD, TRAIN, b"\0"]);
    let mut saving = Saving::new(Index::new(1, 2, 1024).unwrap(), Vec::new()).unwrap();
    saving.add_image(&image[..]).unwrap();
    saving.add(8, "").unwrap();
    let full = saving.add_image(&image[..]);
    assert!(matches!(full, Err(ImageError::BadImage { at: 20, .. })));
    assert_eq!(saving.finish().unwrap().1, joined(&[HEAD, TRAIN, EMPTY, b"\0"]));
}

//! How lines and texts are read, by each type of index, and said badly.

use earlybird::{shared, stream, Answer, Index, Reading, Refusal};

const LINE: &[u8] = br#"{"id":1,"text":"com.acme.billing failed","room":"Kitchen","key":"042","message":"late train"}"#;

/// The answers of each type of index that reads so, to which the line was added.
fn answers(how: &Reading, query: &str) -> Result<Vec<Answer>, Refusal> {
    let mut index = Index::with_reading(1, 9, 1024, how.clone())?;
    index.add_line(LINE)?;
    let (mut writer, _converter) = shared::open_with(1, 9, 1024, how.clone())?;
    writer.add_line(LINE)?;
    let reader = writer.reader()?;
    let mut leader = stream::open_with(1, 9, 1024, 2, how.clone())?;
    leader.add_line(LINE)?;
    let mut follower = leader.follower()?;
    Ok(vec![index.search(9, query)?, reader.clone().search(9, query)?, follower.search(9, query)?, follower.search_line(format!("?9 {query}").as_bytes())?])
}

#[test]
fn each_type_reads_so() {
    let room = Reading::new().fields(["room", "key"]).pieces();
    let named = Reading::new().id("key").text("message");
    for (how, query, wanted) in [
        (&Reading::new(), "room:kitchen", &[][..]),
        (&Reading::new(), "billing", &[]),
        (&room, "room:kitchen billing", &[1]),
        (&room, "key:042", &[1]),
        (&room, "key:42", &[]),
        (&named, "train", &[42]),
        (&named, "billing", &[]),
    ] {
        for answer in answers(how, query).unwrap() {
            assert_eq!((answer.seen, &answer.ids[..]), (1, wanted), "{query}");
        }
    }
    assert_eq!(answers(&room, "room:"), Err(Refusal::BadQuery(1)));
    assert_eq!(answers(&room.clone().id("message"), "late"), Err(Refusal::BadDocument));
}

#[test]
fn what_is_counted() {
    let mut index = Index::with_reading(1, 9, 1024, Reading::new().fields(["room"])).unwrap();
    index.add_line(LINE).unwrap();
    index.add(2, "room:kitchen").unwrap();
    assert_eq!(index.count("room:kitchen").unwrap().total, 1);
    assert_eq!(index.histogram("room:kitchen", 0, 1, 2).unwrap().buckets, [0, 1]);
}

#[test]
fn names() {
    let long = "a".repeat(33);
    for good in [&[][..], &["_"], &["a", "b", "c", "d", "e", "f", "g", "h"], &[&long[1..]], &["id", "text"]] {
        assert!(Index::with_reading(1, 1, 1024, Reading::new().fields(good.iter().copied())).is_ok(), "{good:?}");
    }
    for bad in [&[""][..], &["a,b"], &["A"], &["ä"], &["since"], &["a", "a"], &["a", "b", "c", "d", "e", "f", "g", "h", "i"], &[&long], &["a\0"]] {
        let how = || Reading::new().fields(bad.iter().copied());
        assert_eq!(Index::with_reading(1, 1, 1024, how()).err(), Some(Refusal::BadReading), "{bad:?}");
        assert_eq!(shared::open_with(1, 1, 1024, how()).err(), Some(Refusal::BadReading));
        assert_eq!(stream::open_with(1, 1, 1024, 2, how()).err(), Some(Refusal::BadReading));
    }
    let endless = Reading::new().fields(std::iter::repeat("a"));
    for how in [endless, Reading::new().id(""), Reading::new().text("")] {
        assert_eq!(Index::with_reading(1, 1, 1024, how).err(), Some(Refusal::BadReading));
    }
    assert_eq!(Refusal::BadReading.to_string(), "bad reading");
}

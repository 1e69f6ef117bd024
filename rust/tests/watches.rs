//! Watches: what a message tells, and each refusal.

use earlybird::{Index, Reading, Refusal, Watches};

#[test]
fn each_tells_as_a_search_of_the_message_alone() {
    let queries = ["train", "-train", "a OR b", "\"a b\"", "\"a b\"~2", "since:4", "(a -b) OR train", "a a"];
    let mut watches = Watches::new().unwrap();
    for (number, query) in queries.iter().enumerate() {
        watches.set(number as u32, query).unwrap();
    }
    for (id, text) in ["", "a", "b a", "a b", "a x b", "train", "a a train", "x"].iter().enumerate() {
        let mut index = Index::new(1, 1, 1024).unwrap();
        index.add(id as u64, text).unwrap();
        let matching = |number: &u32| !index.search(1, queries[*number as usize]).unwrap().ids.is_empty();
        let wanted: Vec<u32> = (0..queries.len() as u32).filter(matching).collect();
        assert_eq!(watches.tell(id as u64, text).unwrap(), wanted, "{text}");
    }
}

#[test]
fn refusals_change_nothing() {
    let mut watches = Watches::with_reading(Reading::new().fields(["room"])).unwrap();
    watches.set(7, "room:kitchen").unwrap();
    assert_eq!(watches.set(7, "bus"), Err(Refusal::WatchTaken));
    assert_eq!(watches.set(8, "a -"), Err(Refusal::BadQuery(4)));
    assert_eq!(watches.set(8, ""), Err(Refusal::BadQuery(1)));
    assert_eq!(watches.remove(8), Err(Refusal::NoWatch));
    assert_eq!(watches.tell_line(b"{"), Err(Refusal::BadJson));
    assert_eq!(watches.tell_line(br#"{"id":1,"text":"bus","room":"Kitchen"}"#).unwrap(), [7]);
    assert_eq!(watches.tell(1, "room:kitchen").unwrap(), []);
    watches.remove(7).unwrap();
    assert_eq!(watches.tell_line(br#"{"id":1,"text":"bus","room":"Kitchen"}"#).unwrap(), []);
    assert_eq!(Watches::with_reading(Reading::new().fields(["Room"])).err(), Some(Refusal::BadReading));
}

#[test]
fn the_most() {
    let mut watches = Watches::new().unwrap();
    for number in 0..10_000 {
        watches.set(number, "train").unwrap();
    }
    assert_eq!(watches.set(10_000, "train"), Err(Refusal::WatchesFull));
    assert_eq!(watches.tell(1, "train").unwrap(), (0..10_000).collect::<Vec<_>>());
    assert_eq!(std::thread::spawn(move || watches.tell(1, "bus")).join().unwrap().unwrap(), []);
}

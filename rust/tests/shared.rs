//! The index that threads share: what its types answer and refuse.

use earlybird::shared::{open, Converter, Reader, Writer};
use earlybird::Refusal;
use std::thread;

#[test]
fn answers_over_what_was_added() -> Result<(), Refusal> {
    let (mut writer, mut converter) = open(3, 1, 1024)?;
    let mut reader = writer.reader()?;
    assert_eq!(reader.seen(), 0);
    for id in 1..=3 {
        writer.add(id, "night train")?;
    }
    assert_eq!((converter.convert()?, converter.convert()?, converter.convert()?), (1, 2, 2));
    let answer = reader.search(2, "train")?;
    assert_eq!((answer.seen, answer.ids, reader.seen()), (3, vec![3, 2], 3));
    assert_eq!(reader.search_line(b"?5 night -day")?.ids, [3, 2, 1]);
    assert_eq!(reader.try_clone()?.seen(), 3);
    Ok(())
}

#[test]
fn refusals_change_nothing() -> Result<(), Refusal> {
    let (mut writer, _converter) = open(1, 1, 1024)?;
    writer.add_line(br#"{"id":1,"text":"a"}"#)?;
    let mut reader = writer.reader()?;
    assert_eq!(writer.add(2, "b"), Err(Refusal::Full));
    assert_eq!(writer.add_line(b"{"), Err(Refusal::BadJson));
    assert_eq!(reader.search(0, "a"), Err(Refusal::BadNumber));
    assert_eq!(reader.search(1, "(a"), Err(Refusal::BadQuery(3)));
    assert_eq!(open(0, 1, 1024).err(), Some(Refusal::BadSetting));
    assert_eq!(reader.search(1, "a")?.ids, [1]);
    Ok(())
}

#[test]
fn many_are_added_in_order() -> Result<(), Refusal> {
    let (mut writer, _converter) = open(1, 3, 1024)?;
    let long = "w ".repeat(1025);
    let messages = [(1, "a"), (2, long.as_str()), (3, "a"), (4, "a"), (5, "a")];
    assert_eq!(writer.add_all(messages), [(1, Refusal::TooLong), (4, Refusal::Full)]);
    assert_eq!(writer.reader()?.search(10, "a")?.ids, [4, 3, 1]);
    Ok(())
}

#[test]
fn each_goes_to_a_thread_of_its_own() -> Result<(), Refusal> {
    fn goes<T: Send>(_: &T) {}
    let (mut writer, converter): (Writer, Converter) = open(1, 10, 1024)?;
    let mut reader: Reader = writer.reader()?;
    goes(&converter);
    thread::spawn(move || writer.add(7, "hello")).join().expect("the thread ends")?;
    assert_eq!(thread::spawn(move || reader.search(1, "hello")).join().expect("the thread ends")?.ids, [7]);
    Ok(())
}

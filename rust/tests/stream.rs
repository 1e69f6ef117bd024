//! The feed that threads share: what its types answer and refuse.

use earlybird::stream::{open, Follower, Leader, Spare};
use earlybird::Refusal;
use std::thread;

#[test]
fn answers_over_the_generations_that_are_kept() -> Result<(), Refusal> {
    let mut leader = open(1, 2, 1024, 2)?;
    let (mut follower, mut asleep) = (leader.follower()?, leader.follower()?);
    assert_eq!((follower.seen(), follower.held()), (0, 1));
    for id in 1..=9 {
        leader.add(id, "night train")?;
        assert_eq!(follower.search(10, "train")?.seen, id);
    }
    let answer = follower.search(2, "train")?;
    assert_eq!((answer.seen, answer.ids, follower.seen(), follower.held()), (9, vec![9, 8], 9, 2));
    assert_eq!(follower.search_line(b"?5 night -day")?.ids, [9, 8, 7]);
    assert_eq!((asleep.seen(), asleep.search(10, "train")?.ids), (0, vec![9, 8, 7]));
    assert!(leader.tell());
    Ok(())
}

#[test]
fn a_converter_changes_no_answer() -> Result<(), Refusal> {
    let mut leader = open(3, 1, 1024, 2)?;
    let mut first = leader.converter()?.expect("the first generation's");
    let mut follower = leader.follower()?;
    assert!(leader.converter()?.is_none());
    for id in 1..=5 {
        leader.add(id, "a b")?;
    }
    let mut second = leader.converter()?.expect("the second generation's");
    drop(leader);
    assert_eq!((first.convert()?, first.convert()?, first.convert()?, second.convert()?), (1, 2, 2, 1));
    assert_eq!(follower.search(10, "\"a b\"")?.ids, [5, 4, 3, 2, 1]);
    Ok(())
}

#[test]
fn a_spare_index_is_taken_by_the_next_generation() -> Result<(), Refusal> {
    let mut leader = open(1, 2, 1024, 2)?;
    let spare = thread::spawn(|| Spare::open(1, 2, 1024)).join().expect("the thread ends")?;
    assert!(leader.lend(spare)?.is_none());
    let other = leader.lend(Spare::open(1, 2, 1024)?)?.expect("the one before");
    assert_eq!(leader.lend(Spare::open(1, 3, 1024)?).err(), Some(Refusal::BadSetting));
    for id in 1..=3 {
        leader.add(id, "train")?;
    }
    assert!(leader.lend(other)?.is_none());
    assert_eq!(leader.follower()?.search(9, "train")?.ids, [3, 2, 1]);
    Ok(())
}

#[test]
fn a_turn_into_a_spare_index_gives_out_what_it_let_go() -> Result<(), Refusal> {
    let mut leader = open(1, 1, 1024, 2)?;
    let mut asleep = leader.follower()?;
    let mut given = Vec::new();
    for (id, lent) in [(1, false), (2, true), (3, true), (4, false), (5, true)] {
        if lent {
            assert!(leader.lend(Spare::open(1, 1, 1024)?)?.is_none());
        }
        leader.add(id, "train")?;
        let released = leader.released()?;
        assert!(leader.released()?.is_none());
        given.push(released.is_some());
        thread::spawn(move || drop(released)).join().expect("the thread ends");
    }
    assert_eq!(given, [false, false, true, false, true]);
    assert_eq!(asleep.search(9, "train")?.ids, [5, 4]);
    Ok(())
}

#[test]
fn refusals_change_nothing() -> Result<(), Refusal> {
    let mut leader = open(1, 1, 1024, 2)?;
    leader.add_line(br#"{"id":1,"text":"a"}"#)?;
    let mut follower = leader.follower()?;
    assert_eq!(leader.add_line(b"{"), Err(Refusal::BadJson));
    assert_eq!(follower.search(0, "a"), Err(Refusal::BadNumber));
    assert_eq!(follower.search(1, "(a"), Err(Refusal::BadQuery(3)));
    assert_eq!(open(0, 1, 1024, 2).err(), Some(Refusal::BadSetting));
    assert_eq!(open(1, 1, 1024, 1).err(), Some(Refusal::BadSetting));
    assert_eq!(open(1, 1, 1024, 65).err(), Some(Refusal::BadSetting));
    assert_eq!(follower.search(1, "a")?.ids, [1]);
    Ok(())
}

#[test]
fn each_goes_to_a_thread_of_its_own() -> Result<(), Refusal> {
    let mut leader: Leader = open(1, 10, 1024, 2)?;
    let mut follower: Follower = leader.follower()?;
    thread::spawn(move || leader.add(7, "hello")).join().expect("the thread ends")?;
    assert_eq!(thread::spawn(move || follower.search(1, "hello")).join().expect("the thread ends")?.ids, [7]);
    Ok(())
}

"""The feed that threads share: what its objects answer and refuse, and searches beside a leader."""
import threading
import unittest

from earlybird import BadDocument, BadHandle, BadNumber, BadQuery, BadSetting, BadText, Follower, Leader, Spare


class Stream(unittest.TestCase):
    def test_answers_over_the_generations_that_are_kept(self):
        leader = Leader(segments=1, docs=2, terms=1024, keep=2)
        follower, asleep = leader.follower(), leader.follower()
        self.assertEqual((follower.seen, follower.held), (0, 1))
        for id in range(1, 10):
            leader.add(id, "night train")
            self.assertEqual(follower.search("train").seen, id)
        answer = follower.search("train", 2)
        self.assertEqual((list(answer), answer.seen, follower.seen, follower.held), ([9, 8], 9, 9, 2))
        self.assertEqual(list(follower.search_line(b"?5 night -day")), [9, 8, 7])
        self.assertEqual((asleep.seen, list(asleep.search("train")), asleep.seen), (0, [9, 8, 7], 9))
        self.assertTrue(leader.tell())

    def test_a_converter_changes_no_answer(self):
        leader = Leader(segments=3, docs=1, terms=1024, keep=2)
        first, follower = leader.converter(), leader.follower()
        self.assertIsNone(leader.converter())
        for id in range(1, 6):
            leader.add_line(b'{"id":%d,"text":"a b"}' % id)
        second = leader.converter()
        leader.close()
        self.assertEqual([first.convert() for _ in range(3)], [1, 2, 2])
        self.assertEqual(second.convert(), 1)
        self.assertEqual(list(follower.search('"a b"')), [5, 4, 3, 2, 1])

    def test_a_spare_index_is_taken_by_the_next_generation(self):
        leader = Leader(segments=1, docs=2, terms=1024, keep=2)
        spare, other = (Spare(segments=1, docs=2, terms=1024) for _ in range(2))
        self.assertRaises(BadSetting, lambda: leader.lend(Spare(segments=1, docs=3, terms=1024)))
        self.assertEqual((leader.lend(spare), leader.lend(other)), (True, False))
        self.assertRaises(BadHandle, lambda: leader.lend(spare))
        for id in range(1, 4):
            leader.add(id, "train")
        self.assertEqual((leader.lend(other), list(leader.follower().search("train"))), (True, [3, 2, 1]))

    def test_a_turn_into_a_spare_index_gives_out_what_it_let_go(self):
        leader = Leader(segments=1, docs=1, terms=1024, keep=2)
        asleep, given = leader.follower(), []
        for id, lent in ((1, False), (2, True), (3, True), (4, False), (5, True)):
            if lent:
                self.assertTrue(leader.lend(Spare(segments=1, docs=1, terms=1024)))
            leader.add(id, "train")
            released = leader.released()
            self.assertIsNone(leader.released())
            given.append(released is not None)
            if released:
                closing = threading.Thread(target=released.close)
                closing.start()
                closing.join()
                self.assertRaises(BadHandle, lambda: leader.lend(released))
        self.assertEqual((given, list(asleep.search("train"))), ([False, False, True, False, True], [5, 4]))

    def test_refusals_change_nothing(self):
        leader = Leader(segments=1, docs=1, terms=1024, keep=2)
        leader.add(1, "a")
        follower = leader.follower()
        for refusal, call in (
            (BadDocument, lambda: leader.add(-1, "b")), (BadText, lambda: leader.add(2, "\ud800")), (BadNumber, lambda: follower.search("a", 0)),
            (BadQuery, lambda: follower.search("(a")), (BadSetting, lambda: Leader(segments=0)), (BadSetting, lambda: Leader(keep=1)),
            (BadSetting, lambda: Leader(keep=65)), (BadSetting, lambda: Leader(keep=-1)),
        ):
            self.assertRaises(refusal, call)
        self.assertEqual((list(follower.search("a")), follower.seen), ([1], 1))

    def test_what_is_closed_is_refused(self):
        with Leader(segments=1, docs=1, terms=1024) as leader:
            follower = leader.follower()
            leader.add(1, "a")
        for call in (lambda: leader.add(2, "b"), leader.follower, leader.tell, leader.converter, leader.released, lambda: Follower().search("a")):
            self.assertRaises(BadHandle, call)
        self.assertEqual(list(follower.search("a")), [1])
        follower.close()
        self.assertRaises(BadHandle, lambda: follower.seen)

    def test_a_search_sees_all_that_was_told_before(self):
        leader, told, wrong = Leader(segments=1, docs=1000, terms=1024, keep=2), [0], []

        def search(follower):
            while told[0] < 5000:
                seen = follower.seen
                answer = follower.search("all", 3)
                if answer.seen < seen or list(answer) != [n for n in range(answer.seen, answer.seen - 3, -1) if n > 0]:
                    wrong.append(answer)
            wrong.extend([] if follower.search("all", 1) == [5000] else [follower.seen])

        threads = [threading.Thread(target=search, args=(leader.follower(),)) for _ in range(2)]
        for it in threads:
            it.start()
        for n in range(1, 5001):
            leader.add(n, "all")
            while not leader.tell():
                pass
            told[0] = n
        for it in threads:
            it.join()
        self.assertEqual(wrong, [])


if __name__ == "__main__":
    unittest.main()

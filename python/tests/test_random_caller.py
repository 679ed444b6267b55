"""The random caller finds wrong libraries: each of these differs in one thing, and now and then only."""
import random
import unittest
from unittest import mock

import random_caller
from tazbrev._library import MOVED, REPLY, Core

CALLS = 20000
RIGHT = {name: getattr(Core, name) for name in (
    'next', 'brought', 'submit_read', 'submit_write', 'answer_done', 'answer_failed', 'close_handle', 'open_handle')}
draw = random.Random(1)


def rarely():
    return draw.random() < 0.005


def a_reply_is_lost(core):
    kind = RIGHT['next'](core)
    if kind == REPLY and rarely():
        core.event.kind = kind = MOVED
    return kind


def a_reply_comes_twice(core):
    kind = RIGHT['next'](core)
    if kind == REPLY:
        core.last = core.event.token
    elif kind == MOVED and hasattr(core, 'last') and rarely():
        core.event.kind, core.event.token = REPLY, core.last
        return REPLY
    return kind


def a_bit_differs(core):
    data = RIGHT['brought'](core)
    return data[:-1] + bytes([data[-1] ^ 1]) if data and rarely() else data


def a_read_is_of_other_sectors(core, actor, handle, offset, length, token):
    offset += 512 if offset < 20000 and rarely() else 0
    return RIGHT['submit_read'](core, actor, handle, offset, length, token)


def a_write_loses_its_end(core, actor, handle, offset, data, token):
    return RIGHT['submit_write'](core, actor, handle, offset, data[:512] if rarely() else data, token)


def a_second_answer_is_taken(core, bio):
    try:
        RIGHT['answer_done'](core, bio)
    except random_caller.errors.UnfitError:
        pass


def a_failure_is_told_as_well(core, bio, done=0):
    try:
        RIGHT['answer_done'](core, bio)
    except random_caller.errors.UnfitError:
        RIGHT['answer_failed'](core, bio, done)


def a_busy_handle_is_told_as_closed(core, actor, handle, token):
    error = RIGHT['close_handle'](core, actor, handle, token)
    return 0 if error == random_caller.errors.BusyError.number else error


def an_exclusive_right_is_forgotten(core, actor, handle, provider, r, w, e, token):
    return RIGHT['open_handle'](core, actor, handle, provider, r, w, 0 if r or w else e, token)


WRONG = (
    ('next', a_reply_is_lost), ('next', a_reply_comes_twice), ('brought', a_bit_differs),
    ('submit_read', a_read_is_of_other_sectors), ('submit_write', a_write_loses_its_end),
    ('answer_done', a_second_answer_is_taken), ('answer_failed', a_failure_is_told_as_well),
    ('close_handle', a_busy_handle_is_told_as_closed), ('open_handle', an_exclusive_right_is_forgotten))


class RandomCaller(unittest.TestCase):
    def test_it_finds_each_wrong_library(self):
        for call, wrong in WRONG:
            with self.subTest(wrong.__name__), mock.patch.object(Core, call, wrong):
                self.assertRaises(random_caller.Difference, random_caller.run, CALLS, 5)

    def test_it_finds_nothing_in_the_right_one(self):
        self.assertEqual(sum(random_caller.run(2000, 5).values()), 2000)


if __name__ == '__main__':
    unittest.main()

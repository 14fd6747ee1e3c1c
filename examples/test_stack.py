#!/usr/bin/env python3
"""usage: test_stack.py   tests a protocol stack with unittest: ip over two ethernets, set up and torn down

The program is the one that the environment variable MUXSIM names, else `muxsim` in PATH."""
import os
import sys
import unittest

sys.path.insert(0, os.path.join(os.path.dirname(os.path.realpath(__file__)), "..", "python"))

import muxsim

DRIVERS = ["ip mux 4 8 3 16", "eth leaf 2 8 3 16"]
HERE, NEAR, FAR = 9, 5, 6


class Stack:
    """The stack under test: a daemon links two ethernets below ip and sets the routes."""

    def __init__(self, session):
        self.daemon = session.process(0)
        self.ip = self.daemon.clone("ip").fd
        self.lower = [self.daemon.clone("eth") for _ in range(2)]
        self.links = [self.daemon.link(self.ip, stream.fd).id for stream in self.lower]
        for address, link in zip([NEAR, FAR], self.links):
            self.daemon.route(self.ip, address, link)


class StackTest(unittest.TestCase):
    def setUp(self):
        self.session = muxsim.Session(DRIVERS)
        self.addCleanup(self.session.close)
        self.stack = Stack(self.session)
        self.user = self.session.process(1)
        self.fd = self.user.clone("ip").fd
        self.user.bind(self.fd, HERE)

    def test_a_message_goes_down_by_its_route(self):
        self.assertTrue(self.user.write(self.fd, FAR, b"hello"))
        near, far = self.stack.lower
        self.assertEqual(self.user.transmit("eth", far.minor).data, b"hello")
        self.assertEqual(self.user.transmit("eth", near.minor).words, "EAGAIN empty")

    def test_a_message_comes_up_to_its_address(self):
        self.user.inject("eth", 0, HERE, b"\xab")
        got = self.user.read(self.fd)
        self.assertEqual((got.address, got.data), (HERE, b"\xab"))

    def test_a_full_device_holds_back_its_writers(self):
        while self.user.write(self.fd, NEAR, b"1234"):
            pass
        self.assertEqual(self.user.write(self.fd, NEAR, b"1234").words, "EAGAIN full")
        self.user.transmit("eth", 0)
        self.assertFalse(self.user.write(self.fd, NEAR, b"1234"))  # 4 bytes are left, above the low water mark
        self.user.transmit("eth", 0)
        self.assertTrue(self.user.write(self.fd, NEAR, b"1234"))

    def test_no_descriptor_reaches_a_linked_stream(self):
        refused = self.stack.daemon.read(self.stack.lower[0].fd)
        self.assertEqual((refused.errno_name, refused.cause), ("EINVAL", "below"))

    def test_the_links_go_with_the_daemon(self):
        self.user.inject("eth", 0, 7, b"nobody reads it")
        self.assertEqual(self.stack.daemon.exit().dropped, (1,))
        self.assertNotIn("link", self.session.show())

    def test_each_history_is_legal(self):
        self.assertTrue(muxsim.check(self.session.transcript()))


if __name__ == "__main__":
    unittest.main()

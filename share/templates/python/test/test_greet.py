import unittest

from greet import greeting


class Greeting(unittest.TestCase):
    def test_greets(self):
        self.assertIn("hello", greeting())


unittest.main()

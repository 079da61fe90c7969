"""Tests of how the second calculation mixes channels for which there is no equation.

The equations themselves have cases below tests/cases/channel-mixing."""

import unittest

from waplay_tools.expecting.numbers import mixed

COUNTS = range(1, 33)
WITH_LAYOUT = {1, 2, 4, 6}  # the numbers of channels between which there are equations


class Mixing(unittest.TestCase):
    def test_channels_without_an_equation_stay_in_their_places(self):
        for several in COUNTS:
            channels = [100 + channel for channel in range(several)]
            for count in COUNTS:
                kept = (channels + [0] * count)[:count]
                self.assertEqual(mixed(channels, count, "discrete"), kept)
                if several == count or not {several, count} <= WITH_LAYOUT:
                    self.assertEqual(mixed(channels, count, "speakers"), kept)

    def test_a_product_at_the_end_of_the_range_is_exact(self):
        centre = [0, 0, -(2**31), 0, 0, 0]
        root_of_half = 11863283  # over 2^24
        self.assertEqual(mixed(centre, 2, "speakers"), [-128 * root_of_half] * 2)


if __name__ == "__main__":
    unittest.main()

"""Random values, times and lists of values."""

from collections.abc import Callable

from waplay_tools.random_scripts.choices import Choices
from waplay_tools.random_scripts.kinds import FIX, ONE, TIME


class Values(Choices):
    """Random values, times and lists of values."""

    def fix(self) -> int:
        """Mostly a value of moderate size, so that a sum is not always past the range."""
        some = self.rng.randint(0, 9)
        if some < 6:
            return self.rng.randint(-ONE, ONE)
        if some < 8:
            return self.rng.choice([0, 1, -1, 2, ONE, -ONE, ONE // 2, ONE - 1, ONE + 1, 3 * ONE])
        return self.rng.choice([*FIX, self.rng.randint(*FIX)])

    def time(self) -> int:
        """Mostly a frame of the context, and at a suspension mostly one that is to come."""
        some = self.rng.randint(0, 9)
        if some < 6:
            return self.rng.randint(max(0, self.now - 100), self.length)
        if some < 8:
            return self.now + self.rng.choice([0, 1, *self.near(1), 2 * self.quantum])
        return self.rng.choice([self.length + self.rng.randint(-1, 130), -1, TIME, -TIME])

    def value(self) -> int:
        """A value of a parameter. Most are such that what comes to the file is within its range."""
        some = self.rng.randint(0, 19)
        if some < 13:
            return self.rng.randint(-ONE, ONE)
        if some < 16:
            return self.rng.choice([0, 0, 1, -1, ONE, -ONE, ONE // 2, 2 * ONE])
        return self.rng.choice(
            [*FIX, FIX[0] + 1, FIX[1] - 1, self.rng.randint(*FIX), self.rng.randint(-9, 9)]
        )

    def points(self, value: Callable[[], int] | None = None) -> list[int]:
        """Those of a curve: two, three or some, now and then many or too few."""
        some = self.rng.randint(0, 19)
        count = (
            self.rng.choice([2, 2, 3])
            if some < 12
            else self.rng.randint(4, 12)
            if some < 17
            else self.rng.choice([0, 1, 1, 60, 200])
        )
        return [(value or self.value)() for _ in range(count)]

    def seconds(self, frames: float) -> int:
        """So many frames in units of 2^-24 of a second. With a half of a frame it is near where
        rounding turns."""
        return int(frames * ONE // self.rate)

    def delayed_by(self) -> int:
        """A time of a delay. Most are some quanta at most; some lie where rounding turns, or past
        the ends."""
        some, frames = self.rng.randint(0, 19), self.rng.choice(
            [0, 1, 2, *self.near(1), *self.near(2)]
        )
        if some < 8:
            frames = self.rng.choice([self.rng.randint(0, 40), self.rng.randint(0, 400)])
        if some < 14:
            return self.seconds(frames) + self.rng.choice([0, 1])
        if some < 17:
            return self.seconds(frames + 0.5) + self.rng.choice([-1, 0, 1, 1, 2])
        return self.rng.choice(
            [0, 0, ONE, -1, 16 * ONE, *FIX, self.seconds(-frames), self.seconds(self.length)]
        )

    def bend(self) -> list[int] | None:
        """The curve of a shaper, or none. Some have points at the ends of the range, and some many
        of them, as a staircase has."""
        some = self.rng.randint(0, 19)
        if some < 4:
            return None
        if some < 6:
            return [self.rng.choice(FIX) for _ in range(self.rng.choice([2, 2, 3, 4, 9]))]
        if some < 8:
            steps, length = self.rng.choice([2, 3, 8, 17]), self.rng.choice([1, 2, 7, 30])
            return [
                2 * ONE * step // (steps - 1) - ONE for step in range(steps) for _ in range(length)
            ]
        return self.points()

    def coefficients(self) -> tuple[list[int], list[int]]:
        """The two lists of a filter: mostly of one that comes to rest, some of them with small
        numbers, for the sake of halves; now and then of one that swings, or with numbers from the
        whole range, or such that there can be no filter."""
        rng, some = self.rng, self.rng.randint(0, 19)
        forward, back = (rng.choice([1, 1, 2, 2, 3, 3, rng.randint(1, 20), 20]) for _ in range(2))
        if some < 11:
            most = 9 if some < 5 else ONE
            first = rng.choice(
                [2, -2, 4, -4, 6, -10]
                if some < 5
                else [ONE, -ONE, ONE, 2 * ONE, rng.randint(1, 2 * ONE)]
            )
            part = abs(first) // max(1, back - 1)
            lists = [
                [rng.randint(-most, most) for _ in range(forward)],
                [rng.randint(-part, part) for _ in range(back)],
            ]
        elif some < 15:  # such as y[n] = x[n] + r y[n-1] - y[n-2], or that goes from end to end
            first = rng.choice([ONE, -ONE, 1, 2, 3, rng.randint(1, ONE)])
            swing = [
                rng.randint(-2 * abs(first), 2 * abs(first)),
                first,
                *(rng.randint(-1, 1) for _ in range(18)),
            ]
            most = 2 * abs(first)
            lists = [[rng.randint(-most, most) for _ in range(forward)], [0, *swing[: back - 1]]]
        else:
            first = rng.choice([*FIX, *FIX, 1, -1, 3, -3, 2**30, rng.randint(*FIX)])
            lists = [
                [
                    rng.choice([*FIX, 0, 0, 1, -1, ONE, 2**30, rng.randint(*FIX)])
                    for _ in range(length)
                ]
                for length in (forward, back)
            ]
        lists[1][0] = first
        wrong = rng.randint(0, 39)
        if wrong < 2:
            return [] if wrong else lists[0] * 21, lists[1]
        if wrong < 4:
            return lists[0], lists[1] * 21 if wrong == 2 else []
        if wrong < 6:
            return [0] * len(lists[0]), lists[1]
        return lists[0], [0] + lists[1][1:] if wrong < 8 else lists[1]

    def response(self) -> list[int]:
        """The samples of a response of a convolver. Some die away, some are echoes, some go from
        end to end of what a response may have, and some are small, for the sake of halves. Now and
        then one is too loud."""
        rng, some, most = self.rng, self.rng.randint(0, 19), 2 * ONE
        length = rng.choice([1, 1, 2, 3, *self.near(1), 300, rng.randint(1, 40)])
        if self.may(0.4):
            length = rng.randint(1, 300)
        if some < 7:
            values = [rng.randint(-ONE, ONE) * (length - at) // length for at in range(length)]
        elif some < 10:
            values = [rng.randint(-ONE, ONE) if self.may(0.1) else 0 for _ in range(length)]
        elif some < 15:
            ends = [most, -most, most, -most, most - 1, 1 - most, 0, rng.randint(-most, most)]
            values = [rng.choice(ends) for _ in range(length)]
        else:
            small = rng.choice([1, 9, 1000])
            values = [rng.randint(-small, small) for _ in range(length)]
        if self.may(0.06):
            values[rng.randrange(length)] = rng.choice([most + 1, -most - 1, *FIX])
        return values

    def span(self, name: str, time: int) -> int:
        """The duration of a curve from this time on: mostly some frames or up to the time of
        another edit, now and then one, very many, or none."""
        some, later = self.rng.randint(0, 19), [
            known - time for known in self.instants[name] if known > time
        ]
        if later and some < 6:
            return min(TIME, self.rng.choice(later) + self.rng.choice([0, 0, 1, -1]))
        if some < 11:
            return self.rng.randint(2, 40)
        if some < 17:
            return self.rng.choice(
                [1, 1, 2, 3, *self.near(1), self.rng.randint(1, self.length + 1)]
            )
        return self.rng.choice(
            [self.length + self.rng.randint(0, 300), TIME, TIME - 1, 2**39, 2**31, 0, -1, -TIME]
        )

    def instant(self, name: str) -> int:
        """A time for an edit: often that of another one or a curve's end, or a frame beside it."""
        some, known = self.rng.randint(0, 19), self.instants.setdefault(name, [0])
        if some < 9:
            time = self.rng.choice(known) + self.rng.choice([0, 0, 0, 1, -1])
        elif some < 14:
            time = self.rng.randint(max(0, self.now - 100), self.length)
        elif some < 18:
            time = (
                self.now
                + self.rng.choice([0, 0, 1, 2, 3])
                + self.rng.choice([0, 0, *self.near(1)[:2], *self.near(2)[:2]])
            )
        else:
            far = [TIME, TIME - self.rng.randint(0, 300), self.length + self.rng.randint(-1, 300)]
            time = self.rng.choice([-1, -TIME, *far])
        return max(-TIME, min(TIME, time))

    def number(self) -> int:
        """The number of the outputs or inputs of a node, mostly a small one."""
        some = self.rng.randint(0, 19)
        if some < 12:
            return self.rng.choice([1, 2, 2, 3, 4, 6])
        return self.rng.randint(1, 32) if some < 19 else self.rng.choice([0, 32, 33, 2**32 - 1])

    def loop_point(self, length: int) -> int:
        """Mostly one that is in a buffer of this length or near its end."""
        some = self.rng.randint(0, 9)
        if some < 7:
            return self.rng.randint(0, length)
        return self.rng.choice([0, -1, 1, length - 1, length + 1, length + 9, TIME, -TIME])

    def frames(self) -> int:
        """The length of a buffer, mostly a small one."""
        some = self.rng.randint(0, 19)
        if some < 12:
            return self.rng.randint(1, 12)
        if some < 19:
            return self.rng.randint(1, 400)
        return self.rng.choice([*self.near(1), *self.near(2)[1:]])

"""What the gateway has to write on one link: new numbers one after another, and each range that was asked for again."""
from collections import deque


class OutOfPlace(Exception):
    """A number that isn't the next one to be written."""


class Resends:
    """Follows a link from its first frame. A range is answered in one piece, in the order of asking."""

    def __init__(self):
        self.next, self.asked, self.at, self.end = None, deque(), None, 0

    def ask(self, begin, end):
        """A ResendRequest; where it begins above the last number nothing need be sent."""
        self.asked.append((begin, end, self.next is None or begin >= self.next))

    def see(self, frame):
        if frame.repeated:
            self.see_again(frame)
        elif self.at is not None:
            raise OutOfPlace(f"sent again is only what is below {self.at}, to {self.end} was asked for")
        elif frame.number != (self.next or frame.number):
            raise OutOfPlace(f"the next number is {self.next}")
        else:
            self.next = frame.number + 1

    def see_again(self, frame):
        if self.at is None:
            self.at, self.end = self.range_from(frame.number)
        if frame.number != self.at:
            raise OutOfPlace(f"the next number to be sent again is {self.at}")
        self.at = int(frame[36]) if frame.kind == b"4" else self.at + 1
        if self.at > self.end + 1:
            raise OutOfPlace(f"only to {self.end} is to be sent again")
        if self.at > self.end:
            self.at = None

    def range_from(self, number):
        """The next range that was asked for, which has to begin with this number."""
        while self.asked:
            begin, end, may_be_void = self.asked.popleft()
            if begin == number or not may_be_void:
                return begin, self.next - 1 if end == 0 else min(end, self.next - 1)
        raise OutOfPlace("nothing was asked for again")

"""A difference after many calls, shown again by as few of them as it takes."""
import random

from judge import Judge, shown


class Quiet(Judge):
    def loud(self):
        return False


class Remembered:
    """Calls with their inputs, in the order in which they were made; a call is a method of the class that inherits this."""

    def remember(self, call, *inputs):
        self.told.append((call, *inputs))

    def replayed(self, told):
        """Whether these calls, over a new state, meet a difference."""
        other = type(self)(self.calls, Quiet(), random.Random(0))
        for call, *inputs in told:
            getattr(other, call)(*inputs)
        return other.judge.different > 0

    def smallest(self):
        """Drops halves, then quarters, at last single calls, as long as the difference stays."""
        told, part = list(self.told), len(self.told)
        while part > 1:
            part, at = (part + 1) // 2, 0
            while at < len(told):
                fewer = told[:at] + told[at + part:]
                told, at = (fewer, at) if self.replayed(fewer) else (told, at + part)
        return told

    def judged(self, got, wanted, stands, call, *inputs):
        """Compares a call that was remembered; the first difference of a state is shown by its smallest sequence."""
        if self.judge.compare(got, wanted, stands, call, *inputs) or self.shrunk or not self.judge.loud():
            return
        self.shrunk = True
        if self.replayed(self.told):
            print(f"  smallest: {shown(self.smallest())}", flush=True)

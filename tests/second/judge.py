"""Counts what was compared, and prints each difference with its input."""
import collections

from calls import ROOT

LOUD = 8
SHORT = 1500
KEPT = ROOT / "target/differences.txt"


class Judge:
    def __init__(self):
        self.compared = 0
        self.different = 0
        self.doing = ""
        self.answers = collections.defaultdict(set)

    def compare(self, got, wanted, stands, call, *inputs):
        """One call: its answer, whether every lent byte is as it has to be, and its name and inputs to repeat it by."""
        self.compared += 1
        answer = wanted[0] if isinstance(wanted, tuple) else wanted
        if type(answer) is int:
            self.answers[call].add(answer)
        if got == wanted and stands:
            return True
        self.different += 1
        if self.loud():
            self.say(got, wanted, "" if stands else "; lent bytes are not as they have to be", f"{call}({', '.join(map(shown, inputs))})")
        return False

    def loud(self):
        """The first differences are printed, all are counted."""
        return self.different <= LOUD

    def say(self, got, wanted, more, call):
        """A long input is printed by its end; the file has it whole."""
        said = f"DIFFERENT in {self.doing}: {{}}: library {got}, model {wanted}{more}"
        with KEPT.open("w" if self.different == 1 else "a") as out:
            out.write(said.format(call) + "\n")
        print(said.format(call if len(call) <= SHORT else f"[whole in {KEPT.relative_to(ROOT)}] .. {call[-SHORT:]}"), flush=True)


def shown(value):
    """An input in words: bytes in hexadecimal, a call as its name and inputs, calls one after another."""
    if isinstance(value, tuple):
        return " ".join(map(shown, value))
    if isinstance(value, list):
        return "[" + "; ".join(map(shown, value)) + "]"
    return value.hex() or "-" if isinstance(value, bytes) else str(value)

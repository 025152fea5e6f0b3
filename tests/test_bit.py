"""Black-box tests of frames of which one bit is turned: each bit of each frame that a worked run brings."""

from models.scripts import WORKED, script_of
from payd_tools import model
from support.runs import run, same


def with_a_bit_turned(given):
    number = int.from_bytes(given, "big")
    return [(number ^ 1 << bit).to_bytes(len(given), "big") for bit in range(8 * len(given))]


class Recorded(model.World):
    """A world that notes what is brought to whom."""

    brought: list = []

    def bring(self, receiver, stream):
        self.brought.append((receiver, stream))
        return super().bring(receiver, stream)


def frames_of(world, commands):
    """What each command brings, as the model plays it."""
    played = Recorded(world)
    for command in commands:
        played.brought = []
        played.run_line(command)
        yield command, played.brought


def test_each_bit_of_each_frame_turned():
    """Each is refused, nothing is forged, and the run goes on as if they hadn't come."""
    rows = {name: row for name, *row in WORKED}
    for name, count in (("plain payment", 14), ("split vote settles", 17)):
        world, commands, lines, status = rows[name]
        played, turned = [], set()
        for command, brought in frames_of(world, commands):
            if not brought:
                played.append(command)
            for receiver, right in brought:
                for wrong in with_a_bit_turned(right):
                    turned.add(len(played))
                    played.append(f"raw {receiver} {wrong.hex()}")
                played.append(f"raw {receiver} {right.hex()}")
        rights = sum(it.startswith("raw ") for it in played) - len(turned)
        same(rights, count, f"the frames of {name}")
        print(f"{name}: {len(turned)} bits turned, of {rights} frames")
        was, output, errors = run(["sim"], script_of(world, played))
        replies = output.splitlines()
        same((was, errors), (status, ""), name)
        members = len(lines) - len([it for it in lines if not it.startswith("member ")])
        same(replies[-members:], lines[-members:], f"the books of {name}")
        for place, reply in enumerate(replies[: len(played) - 1]):
            if place in turned:
                same(reply.startswith("refused "), True, f"{name}, event {place}: {reply}")
            elif played[place].startswith("raw "):
                same(reply.startswith("took"), True, f"{name}, event {place}: {reply}")

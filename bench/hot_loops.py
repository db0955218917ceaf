"""Finds the inner loops of the measured functions that end badly.

On some processors a jump that crosses a 32-byte boundary, or ends at one, is not kept in the cache
of decoded instructions, and a loop that ends in such a jump takes 1.4 times its time or more. A
test that stands right before a conditional jump is one instruction with it.
"""
import re
import subprocess

BLOCK = 32
LIBRARIES = ("adapters::", "sources::", "enumerators::", "products::", "combinations::",
             "permutations::")
FUSED = {"cmp", "test", "add", "sub", "inc", "dec", "and"}
SYMBOL = re.compile(r"^[0-9a-f]+ <(.+)>:$")
INSTRUCTION = re.compile(r"^\s*([0-9a-f]+):\s+(\S+)\s*(.*)$")


def functions(program):
    """The instructions of each function: address, operation, operands."""
    command = ["objdump", "-d", "--no-show-raw-insn", "-C", str(program)]
    listing = subprocess.run(command, capture_output=True, text=True, check=True).stdout
    found, body = {}, []
    for line in listing.splitlines():
        symbol, instruction = SYMBOL.match(line), INSTRUCTION.match(line)
        if symbol:
            body = found.setdefault(symbol.group(1), [])
        elif instruction:
            address, operation, operands = instruction.groups()
            body.append((int(address, 16), operation, operands))
    return found


def loops(body):
    """The loops of a function: where each begins, and the place in the body of the jump back."""
    first = body[0][0]
    for place, (address, operation, operands) in enumerate(body):
        target = re.match(r"([0-9a-f]+)", operands)
        if operation.startswith("j") and target:
            begin = int(target.group(1), 16)
            if first <= begin <= address:
                yield begin, place


def inner_loops(body):
    """The loops that hold no other: where each begins, and the place of the jump back."""
    found = [(begin, body[place][0], place) for begin, place in loops(body)]
    for begin, end, place in found:
        if not any(begin <= b and e <= end and (b, e) != (begin, end) for b, e, _ in found):
            yield begin, place


def reads_places(body, begin, place):
    """Whether a loop reads numbers of 16 bits; one of a making only writes them."""
    return any(begin <= address and operation in ("movzwl", "cmpw")
               for address, operation, _ in body[:place])


def crosses(body, place):
    """Whether the jump at a place, with the test before it, crosses or ends at a boundary."""
    if place + 1 == len(body):
        return False
    start, operation, _ = body[place]
    before = body[place - 1]
    if operation != "jmp" and before[1].rstrip("bwlq") in FUSED:
        start = before[0]
    return start // BLOCK != body[place + 1][0] // BLOCK


class Loops:
    """The functions of this library that are timed."""

    def __init__(self, program):
        self.functions = functions(program)

    def called(self, name):
        """The functions that a function calls, or ends in."""
        for _, operation, operands in self.functions[name]:
            target = operands.partition("<")[2].removesuffix(">")
            if operation in ("call", "jmp") and target != name and target in self.functions:
                yield target

    def function(self, job):
        """The name of the function that plays a job, if it is not laid into its caller."""
        words = job.split(" ")
        if len(words) == 4:
            return f"bench::rows::{words[0]}"
        for name in self.called(f"bench::items::over_{words[0]}s"):
            if name.startswith(f"bench::items::{words[1]}::"):
                return name
        return None

    def note(self, job):
        """What to note of a job in the table."""
        rows = len(job.split(" ")) == 4
        name = self.function(job)
        if name is None:
            return "not looked at: laid into its caller"
        of_library = [called for called in self.called(name) if called.startswith(LIBRARIES)]
        ends = []
        for body in (self.functions[part] for part in {name, *of_library}):
            ends += [crosses(body, place) for begin, place in inner_loops(body)
                     if not rows or reads_places(body, begin, place)]
        return f"{sum(ends)} of {len(ends)} loops cross" if any(ends) else ""

"""Repeated blocks, written out with a stack of the blocks that are open.

Document 02: "In edition 2, code 64 opens a block with its count in the wire byte (1 to 255) and code 65 closes it." "Blocks hold
gates and further blocks, up to 8 deep", "A body means its expansion written out, at most 65,536 gates".
"""

OPEN, CLOSE = 64, 65
MARKS = (OPEN, CLOSE)
MOST_DEEP = 8
MOST_EXPANDED = 65_536


class Block:
    """What is open: how often it is run, whether anything was written in it, how many gates it has come to, and these."""

    def __init__(self, times):
        self.times, self.written, self.size, self.gates = times, False, 0, []

    def add(self, size, gates):
        self.written = True
        self.size += size
        # a list that is too long already is of no use
        self.gates = self.gates + gates if self.size <= MOST_EXPANDED else []


def expansion(items):
    """(the gates, the faults): "16 for an unclosed, empty or unopened block, a depth above 8 or too long an expansion"."""
    stack, faults = [Block(1)], []
    for code, wire, second in items:
        if code == OPEN:
            stack.append(Block(wire))
            if len(stack) > MOST_DEEP + 1:
                faults.append("depth")
        elif code != CLOSE:
            top = stack[-1]
            top.written = True
            top.size += 1
            if top.size <= MOST_EXPANDED:
                top.gates.append((code, wire, second))
        elif len(stack) == 1:
            faults.append("unopened")
        else:
            block = stack.pop()
            if not block.written:
                faults.append("empty")
            size = block.times * block.size
            stack[-1].add(size, block.gates * block.times if size <= MOST_EXPANDED else [])
    if len(stack) > 1:
        faults.append("unclosed")
    elif stack[0].size > MOST_EXPANDED:
        faults.append("too long")
    return (None if faults else stack[0].gates), list(dict.fromkeys(faults))

"""Sets of nodes by the names that a mesh file gives them. They are looked at only where one is asked for: what no one asks for may stand there
in any form."""

from collections import namedtuple

from model import Fault, Stop, line_name

# A piece of a set: its name as the file has it, the line that gives it, the scope that the name belongs to, and a function that gives the node
# numbers.
Piece = namedtuple('Piece', 'name line scope numbers')


def plain(name):
    """A name as it is compared: in capitals, with single blanks."""
    return ' '.join(name.upper().split())


class Sets:
    """Pieces of sets by plain name, and work that is put off until the first set is asked for."""

    def __init__(self):
        self.pieces = {}
        self.late = []
        # the sets that are being looked at, each within the one before
        self.open = []

    def add(self, name, line, numbers, scope=''):
        """A set of this name has these nodes too; numbers is a function without arguments."""
        self.pieces.setdefault(plain(name), []).append(Piece(name, line, scope, numbers))

    def add_late(self, work):
        """Work that adds sets once the first is asked for."""
        self.late.append(work)

    def named(self, name):
        """The node numbers of the set; it must have one."""
        while self.late:
            self.late.pop(0)()
        found = self.found(name)
        if plain(name) in self.open:
            raise Fault(found[0].line, 'set %s is a part of itself' % name)
        self.open.append(plain(name))
        numbers = {number for piece in found for number in piece.numbers()}
        self.open.pop()
        if not numbers:
            raise Fault(found[0].line, 'set %s has no node of the file' % name)
        return numbers

    def found(self, name):
        """The pieces of the set."""
        found = self.pieces.get(plain(name), [])
        if not found:
            there = sorted(pieces[0].name for pieces in self.pieces.values())
            raise Fault(0, 'there is no node set %s; there are: %s' % (name, ', '.join(there) or 'none'))
        for piece in found[1:]:
            if piece.scope != found[0].scope:
                raise Stop(piece.line, 'set %s has another meaning here than on %s: give one of the two another name'
                           % (name, line_name(found[0].line, piece.line)))
        return found


def nodes_within(model, first, last, step=1):
    """The nodes of a range; it may have gaps."""
    return {number for number in model.nodes if first <= number <= last and (number - first) % step == 0}


def node_named(model, number, line, name):
    """A node that a set names by itself must be there."""
    if number not in model.nodes:
        raise Fault(line, 'set %s names node %d, which is not in the file' % (name, number))
    return number

"""What two readers say otherwise, and how much they said alike."""

import collections
import dataclasses


@dataclasses.dataclass(frozen=True)
class Difference:
    """What derproved and another reader say otherwise of octets: `what` is the name of a member, or who refuses."""

    kind: str
    peer: str
    what: str
    octets: bytes
    here: object
    there: object
    found_in: str


HERE_REFUSED, THERE_REFUSED = "refused here alone", "refused there alone"
# of a message that both read, where what stands inside is refused here
INSIDE_REFUSED = "refused here inside"


class Tally:
    """The members that were compared, by class and reader, and the differences."""

    def __init__(self):
        self.members = collections.Counter()
        self.answers = collections.Counter()
        self.differences = []
        self.seen = set()
        self.found_in = ""

    def is_new(self, kind, octets):
        """Whether these octets were not compared as a class yet."""
        known = (kind, octets) in self.seen
        self.seen.add((kind, octets))
        return not known

    def differ(self, kind, peer, what, octets, here, there):
        self.differences.append(Difference(kind, peer, what, bytes(octets), here, there, self.found_in))

    def compare(self, kind, peer, what, octets, here, there):
        self.members[kind, peer] += 1
        if here != there:
            self.differ(kind, peer, what, octets, here, there)

    def answer(self, kind, peer, octets, here, there):
        """Who refuses octets, which `here` and `there` say, or None; answers whether both read them."""
        who = {(True, True): "read by both", (False, False): "refused by both"}
        said = who.get((here is None, there is None)) or (THERE_REFUSED if here is None else HERE_REFUSED)
        self.answers[kind, peer, said] += 1
        if said in (HERE_REFUSED, THERE_REFUSED):
            self.differ(kind, peer, said, octets, here, there)
        return said == "read by both"

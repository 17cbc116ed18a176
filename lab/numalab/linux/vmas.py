"""The areas of a process as a kernel has them: split where a policy is set, and merged where neighbours are alike."""
from collections import namedtuple

from ..model import DEFAULT

# A range of page numbers, its policy, what keeps its private pages together once one is there (anon), and for shared memory its
# segment with where that would begin.
Vma = namedtuple("Vma", "first end policy anon origin")


def near(left, right):
    """Whether two areas, or none, could be one but for what keeps their private pages together."""
    return bool(left and right and left.end == right.first and left.policy == right.policy and left.origin == right.origin)


def agree(left, right):
    """Whether the private pages of two areas can be kept together."""
    return left.anon is None or right.anon is None or left.anon == right.anon


class Vmas:
    """The areas of one process, by address, as a kernel has them of which some rows hold (differences.holding)."""

    def __init__(self, rows):
        self.rows, self.all, self.anons = rows, [], 0
        # Whether a new area between two that cannot be one becomes part of the one before it, and not of the one behind it; and whether
        # an area without a private page takes in others.
        self.mapped_left, self.merged_untouched = rows["areas-maps-merge"] == "6.12", rows["areas-policy-merges"] == "6.16"

    def takes(self, neighbour, anon):
        """Whether an area can have in it private pages that are kept together by anon: in 6.1 and 6.12 one without a page takes none of
        others (is_mergeable_anon_vma, where an empty chain is not singular)."""
        if neighbour.anon is None and self.merged_untouched:
            return True
        return neighbour.anon == anon or neighbour.anon is not None and anon is None

    def copied(self):
        other = Vmas(self.rows)
        other.all, other.anons = list(self.all), self.anons
        return other

    def over(self, number):
        return next((vma for vma in self.all if vma.first <= number < vma.end), None)

    def ending(self, number):
        return next((vma for vma in self.all if vma.end == number), None)

    def beginning(self, number):
        return next((vma for vma in self.all if vma.first == number), None)

    def cut(self, first, end):
        """Splits the areas at both ends of a range; removes those inside, and returns them."""
        inside, rest = [], []
        for vma in self.all:
            for low, high in [(vma.first, min(vma.end, first)), (max(vma.first, first), min(vma.end, end)), (max(vma.first, end), vma.end)]:
                if low < high:
                    (inside if first <= low and high <= end else rest).append(vma._replace(first=low, end=high))
        self.all = rest
        return inside

    def put(self, vmas):
        self.all = sorted([*self.all, *vmas], key=lambda vma: vma.first)

    def join(self, *vmas):
        """Makes one area of some that follow one another; returns it."""
        whole = vmas[0]._replace(end=vmas[-1].end, anon=next((vma.anon for vma in vmas if vma.anon is not None), None))
        self.cut(whole.first, whole.end)
        self.put([whole])
        return whole

    def map(self, first, end, origin):
        """A new area; says whether it became part of another."""
        new = Vma(first, end, DEFAULT, None, origin)
        before, behind = self.ending(first), self.beginning(end)
        left, right = near(before, new), near(new, behind)
        if left and right and not (agree(before, behind) if self.mapped_left else self.takes(before, behind.anon)):
            left, right = self.mapped_left, not self.mapped_left
        self.join(*[before] * left, new, *[behind] * right)
        return left or right

    def set_policy(self, first, end, policy):
        """Sets a policy where an area has another one; returns the areas that have got it, as they are then, whether areas were
        merged, and whether one was left whole."""
        merged = same = False
        changed = []
        for vma in list(self.all):
            low, high = max(vma.first, first), min(vma.end, end)
            if low >= high:
                continue
            if vma.policy == policy:
                same = same or (low, high) != (vma.first, vma.end)
                continue
            part = vma._replace(first=low, end=high, policy=policy)
            before, behind = self.ending(vma.first) if low == vma.first else None, self.beginning(vma.end) if high == vma.end else None
            left = near(before, part) and self.takes(before, part.anon)
            right = near(part, behind) and self.takes(behind, part.anon) and (not left or agree(before, behind))
            self.put([inside._replace(policy=policy) for inside in self.cut(low, high)])
            changed.append(self.join(*[before] * left, part, *[behind] * right))
            merged = merged or left or right
        return changed, merged, same

    def touched(self, number):
        """From its first private page on, an area can only be merged with neighbours that have the same anon or none. It has that of
        the area behind it, or of the one before it, where these are near (find_mergeable_anon_vma)."""
        vma = self.over(number)
        if vma is None or vma.anon is not None or vma.origin is not None:
            return
        before, behind = self.ending(vma.first), self.beginning(vma.end)
        anon = behind.anon if near(vma, behind) else None
        if anon is None:
            anon = before.anon if near(before, vma) else None
        if anon is None:
            self.anons += 1
            anon = self.anons
        self.all = [vma._replace(anon=anon) if other is vma else other for other in self.all]

    def rebind(self, change):
        """Changes all areas."""
        self.all = [change(vma) for vma in self.all]

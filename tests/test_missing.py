"""What is refused at one end where datagrams may be missing, and the lists that some lawful list has."""
from __future__ import annotations

from collections.abc import Iterator

from captures import EndName
from checks import Check, Checks
from fuzzing.missing import STANDING_AT_END, STANDING_BY_OPTION, Lists, Refused, alphabet, sizes, windows
from normal import Side

LONGEST, LONGEST_IN_BLOCKS = 4, 6
ENDS: tuple[EndName, ...] = ("client", "server")
SIDES: tuple[Side, ...] = ("get", "put")
# the rules of which, over these lists, some breach is not certain: where the other end is known, and where it is not
DEPENDING = {True: {10, 18, 22, 26, 27}, False: {5, 6, 7, 13, 16, 19, 25}}


class Missing(Checks):
    """All lists up to that length, over a small alphabet, and all that may have been missed of them."""

    def test_what_stands_is_certain(self) -> None:
        depending: dict[bool, set[int]] = {True: set(), False: set()}
        for end in ENDS:
            for side in SIDES:
                for it in Lists(end, alphabet(end, side)).refused(LONGEST):
                    if it.stands():
                        self.check_each([Check(f"{end} {side}", it.is_certain, it)])
                    elif not it.is_certain:
                        depending[it.knows_other].add(it.rule)
        self.check("by their name", not depending[True] & STANDING_AT_END)
        for knows_other, rules in DEPENDING.items():
            self.check(f"others, {knows_other}", depending[knows_other] >= rules, depending)

    def in_blocks(self) -> Iterator[Refused]:
        """The same over what the two ends say in transfers with windows and block sizes."""
        for end in ENDS:
            for side in SIDES:
                for letters in (windows(end, side), sizes(end, side)):
                    yield from Lists(end, letters).refused(LONGEST_IN_BLOCKS)

    def test_known_options_make_certain(self) -> None:
        """A rule of blocks stands where its option is known, and rule 27 of a read that asks for nothing; else some
        breach of it is not certain. For rule 20 that takes 65,535 blocks."""
        stood, depending = set[int](), set[int]()
        for it in self.in_blocks():
            if it.stands():
                self.check_each([Check("stands", it.is_certain, it)])
                stood |= {it.rule} if it.by_option else set()
            elif it.knows_other and not it.is_certain:
                depending.add(it.rule)
        wanted = {*STANDING_BY_OPTION, 27}
        self.check("each stands", stood == wanted, stood)
        self.check("each depends on its option", depending >= wanted - {20}, depending)

"""Monitors that are certified, from outside: alterations of them that are certified as well tell
nothing of a secret word, on hostile programs beside two memories that differ in every one."""

from __future__ import annotations

import os
import random
import unittest
from array import array

from fanthrig.certifying import Certificate, NotCertified, certificate_of
from fanthrig.certifying.claims import claim_of
from fanthrig.certifying.making import made_of

from .certify_support import File, Pair, example, memory_with, of_class, randomly_altered
from .certify_support import ready_made
from .hostile import hostile
from .test_certify_call import altered

# Alterations, and the programs beside each that is certified.
ALTERATIONS, PROGRAMS = 200, 1000

# ``LC3_SEED`` asks for others.
SEED = int(os.environ.get("LC3_SEED", "39"))


def certificate_or_nothing(files: list[File], others: list[File]) -> Certificate | None:
    """The certificate of a monitor, if it gets one."""
    try:
        return certificate_of(files, others)
    except NotCertified as error:
        # What the maker makes without a problem, the proved test accepts.
        assert "the proved test" not in str(error), error
        return None


class Pairs(unittest.TestCase):
    """Pairs of sittings beside monitors that are certified."""

    programs: list[bytes]

    @classmethod
    def setUpClass(cls) -> None:
        """The programs are drawn once, the memories for each monitor anew."""
        rng = random.Random(SEED)
        cls.programs = [hostile(rng) for _ in range(PROGRAMS)]

    def beside(self, rng: random.Random, made: Certificate, files: list[File]) -> list[str]:
        """What differs beside a monitor, on every program."""
        pair = Pair(rng, made, memory_with(files))
        found = (pair.differs(program) for program in self.programs)
        return [what for what in found if what]

    def test_altered_monitors_that_are_certified_tell_nothing(self) -> None:
        rng, certified = random.Random(SEED), 0
        for number in range(ALTERATIONS):
            whole = [ready_made()] if number % 2 else of_class()
            files = randomly_altered(rng, whole)
            made = certificate_or_nothing(files, [])
            if made is not None:
                certified += 1
                with self.subTest(number=number, seed=SEED):
                    self.assertEqual(self.beside(rng, made, files), [])
        # Both kinds are met often, so that the test says something.
        self.assertGreater(certified, ALTERATIONS // 8)
        self.assertGreater(ALTERATIONS - certified, ALTERATIONS // 8)

    def test_claims_that_are_altered(self) -> None:
        """A certificate edited by hand that the proved test accepts holds for what it claims."""
        rng, certified = random.Random(SEED), 0
        whole = [certificate_of([ready_made()]), certificate_of(of_class())]
        for number in range(5 * ALTERATIONS):
            made = altered(rng, rng.choice(whole))
            if made.tested() and made not in whole:
                certified += 1
                pair = Pair(rng, made, array("H", made.words))
                programs = rng.sample(self.programs, PROGRAMS // 50)
                with self.subTest(number=number, seed=SEED):
                    self.assertEqual({pair.differs(program) for program in programs}, {""})
        self.assertGreater(certified, ALTERATIONS // 8)

    def test_a_leak_is_seen_by_pairs(self) -> None:
        """The pairs themselves are worth something: beside leaky.obj, of which a certificate is
        made as if its answer were no secret, they differ."""
        files, marking = [example("monitor"), example("leaky")], example("marking")
        with self.assertRaisesRegex(NotCertified, "x0301: loads the secret word x2027"):
            certificate_of(files, [marking])
        claim = claim_of([*files, marking], [])
        made = made_of(claim)
        kinds = bytes(kind if at < 0x2000 else 0 for at, kind in enumerate(made.kinds))
        lying = Certificate(kinds, made.words, made.lowest, made.watched, made.ends, made.table)
        self.assertFalse(lying.tested())
        rng = random.Random(SEED)
        self.assertNotEqual(self.beside(rng, lying, [*files, marking]), [])


if __name__ == "__main__":
    unittest.main()

"""Whom a name means: a derivation of its own over random members, and what is told where more than one is meant."""
import random
import unittest

from residency import Member
from residency.naming import MOST_LABELS, label, labels, meant


def derived(members, text):
    """The numbers of the members whom a text means, way by way."""
    found = set()
    for number, (_, docket_name, name, identity) in enumerate(members):
        ways = {docket_name, name, f"{name} ({identity})" if identity else f"{name} ({docket_name})"}
        if identity:
            ways.add(identity)
        if text in ways:
            found.add(number)
    return sorted(found)


class Meant(unittest.TestCase):
    def test_derived(self):
        rng = random.Random(68)
        one = several = nobody = 0
        for _ in range(300):
            pool = [rng.choice(["Ana", "Bo", "Zoë Weiß", "7", "ana", "a-1", "Ana (7)"]) for _ in range(4)]
            ids = ["7", "8", "", "Ana", "a-2"]
            members = [Member("R", f"a-{n}", rng.choice(pool), rng.choice(ids)) for n in range(rng.randint(0, 5))]
            texts = pool + ids + [f"a-{n}" for n in range(6)] + [label(member) for member in members] + ["Ana (", "ana ", "Nobody"]
            for text in filter(None, texts):
                wanted = derived(members, text)
                self.assertEqual([members.index(member) for member in meant(members, text)] if len(set(members)) == len(members)
                                 else len(meant(members, text)), wanted if len(set(members)) == len(members) else len(wanted))
                one, several, nobody = one + (len(wanted) == 1), several + (len(wanted) > 1), nobody + (not wanted)
        self.assertGreater(min(one, several, nobody), 300)

    def test_nothing_means_nobody(self):
        self.assertEqual(meant([Member("R", "ana", "Ana"), Member("R", "bo", "")], ""), [])

    def test_labels(self):
        anas = [Member("R", f"ana-{n}", "Ana", str(n)) for n in range(MOST_LABELS + 3)]
        self.assertEqual(labels(anas[:2]), "Ana (0), Ana (1)")
        self.assertEqual(labels(anas[:MOST_LABELS]).count("("), MOST_LABELS)
        for more in (1, 3):
            self.assertTrue(labels(anas[:MOST_LABELS + more]).endswith(f"Ana (9) and {more} more"))
        self.assertEqual(labels([Member("R", "ana", "A\x1bna", "7")]), "A\\x1bna (7)")

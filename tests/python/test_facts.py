"""The published facts of examples/facts.py, each with its source."""
import importlib.util
import sys

from helpers import EXAMPLES, Test, needed


class OfFacts(Test):
    def test_each_holds(self):
        needed("networkx")
        spec = importlib.util.spec_from_file_location("facts", EXAMPLES / "facts.py")
        facts = importlib.util.module_from_spec(spec)
        spec.loader.exec_module(facts)
        self.addCleanup(sys.path.remove, sys.path[0])
        self.assertGreaterEqual(len(facts.FACTS), 29)
        for source, says, holds in facts.FACTS:
            with self.subTest("%s: %s" % (source, says)):
                self.assertTrue(holds())

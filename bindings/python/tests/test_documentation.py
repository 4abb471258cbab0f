"""Each public item has a docstring with an example, and each example gives what it says."""

import doctest
import enum
import importlib
import importlib.util
import inspect
import pkgutil
import unittest
from pathlib import Path

import tuhvondi

NAMES = {each.name for each in pkgutil.iter_modules(tuhvondi.__path__)} - {"__main__", "libtuhvondi"}
MODULES = [importlib.import_module(f"tuhvondi.{name}") for name in sorted(NAMES)]


def installed(name):
    return importlib.util.find_spec(name) is not None


class Documentation(unittest.TestCase):
    def test_examples(self):
        """Those that need networkx are left out where it is not installed."""
        tried = 0
        for module in [tuhvondi, *MODULES]:
            for test in doctest.DocTestFinder(exclude_empty=True).find(module):
                source = "".join(example.source for example in test.examples)
                if "networkx" in source and not installed("networkx"):
                    continue
                with self.subTest(test.name):
                    done = doctest.DocTestRunner().run(test)
                    self.assertEqual(done.failed, 0)
                    tried += done.attempted
        self.assertGreater(tried, 200)

    def test_the_page(self):
        page = Path(__file__).resolve().parents[1] / "README.md"
        self.assertEqual(doctest.testfile(str(page), module_relative=False).failed, 0)

    def test_each_public_item_has_an_example(self):
        lacking = []
        public = [(name, getattr(tuhvondi, name)) for name in tuhvondi.__all__]
        public += [(f"study.{name}", getattr(tuhvondi.study, name)) for name in tuhvondi.study.__all__]
        for name, each in public:
            if inspect.isclass(each) and issubclass(each, tuhvondi.Refused) and each is not tuhvondi.Refused:
                self.assertTrue(each.__doc__, name)
                continue
            if not inspect.isclass(each) and not inspect.isfunction(each):
                continue
            items = [(name, each)]
            if inspect.isclass(each) and not issubclass(each, enum.Enum):
                items += [(f"{name}.{key}", getattr(each, key)) for base in each.__mro__
                          if base.__module__.startswith("tuhvondi") for key, value in vars(base).items()
                          if not key.startswith("_") and (inspect.isfunction(value) or isinstance(
                              value, (property, classmethod, staticmethod)))]
            lacking += [key for key, value in items if ">>>" not in (inspect.getdoc(value) or "")]
        self.assertEqual(lacking, [])


if __name__ == "__main__":
    unittest.main()

"""docs/PYTHON.md has all that the packages export, with the options of each call."""
import inspect
import os
import re

import tezgumi
from support import CHECKOUT, TimedTest, read_bytes

PAGE = read_bytes(os.path.join(CHECKOUT, "docs", "PYTHON.md")).decode()


class Document(TimedTest):
    def test_all_that_is_exported(self):
        names = [name for name in tezgumi.__all__ if name not in ("parts", "page", "__version__")]
        for name in [*names, "tezgumi.parts", "tezgumi.mpi", "page(rounds"]:
            self.assertTrue(re.search(rf"(?<!\w){re.escape(name)}(?!\w)", PAGE), name)

    def test_words_of_each_call(self):
        told = {}
        for name, words in re.findall(r"`(\w+(?:\.\w+)?)\(([^`]*)\)`", PAGE):
            told.setdefault(name, []).append(words.replace('"', "'"))
        seen = 0
        for name, all_words in told.items():
            call = getattr(tezgumi, name, None)
            if call is None or not inspect.isfunction(call) or any(".." in words or not words for words in all_words):
                continue
            wanted = ", ".join(
                word if parameter.default is parameter.empty else f"{word}={parameter.default!r}"
                for word, parameter in inspect.signature(call).parameters.items())
            self.assertIn(wanted.removesuffix(f", most={2**32 - 1}"), all_words, name)
            seen += 1
        self.assertGreater(seen, 8)

    def test_pictures(self):
        try:
            import tezgumi_plot
        except ImportError as error:
            self.skipTest(f"no pictures: {error}")
        for name in tezgumi_plot.__all__:
            words = ", ".join(
                word if parameter.default is parameter.empty else f"{word}={parameter.default!r}"
                for word, parameter in inspect.signature(getattr(tezgumi_plot, name)).parameters.items())
            self.assertTrue(f"`tezgumi_plot.{name}({words})`".replace("'", '"') in PAGE, f"{name}({words})")

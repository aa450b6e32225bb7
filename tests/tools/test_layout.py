"""Where things stand, and what they are called."""

from __future__ import annotations

import os
import re
import unittest

from packs import ROOT, TOOLS


class Names(unittest.TestCase):
    def test_judge_is_a_crate_and_no_tool(self) -> None:
        self.assertEqual([path for path in TOOLS.rglob("*") if path.stem == "judge"], [])


class Tools(unittest.TestCase):
    """What users run stands in tools/, and README.md tells of it; what developers run stands elsewhere."""

    page = (ROOT / "README.md").read_text(encoding="utf-8")

    def test_readme_tells_of_each_tool(self) -> None:
        tools = {path.name for path in TOOLS.iterdir() if path.is_file() and os.access(path, os.X_OK)}
        self.assertEqual(tools, set(re.findall(r"\btools/([\w-]+)", self.page)))

    def test_what_readme_has_users_run_stands_in_tools(self) -> None:
        use = self.page.split("## Use")[1].split("\n## ")[0]
        paths = {word for word in re.findall(r"[\w.-]+(?:/[\w.-]+)+", use) if (ROOT / word).is_file()}
        run = {word for word in paths if os.access(ROOT / word, os.X_OK) and "/out/" not in word}
        self.assertGreater(len(run), 3)
        self.assertEqual({word.split("/")[0] for word in run}, {"tools"})

    def test_every_path_that_a_page_names_is_there(self) -> None:
        for page in [ROOT / "README.md", ROOT / "CONTRIBUTING.md", *sorted((ROOT / "docs").rglob("*.md"))]:
            text = page.read_text(encoding="utf-8")
            folders = "tools|tests|bench|examples|include|docs|samples"
            named = set(re.findall(rf"(?<![\w/])(?:{folders})/[\w./-]*[\w-]", text))
            self.assertEqual({name for name in named if not (ROOT / name).exists()}, set(), page.name)


if __name__ == "__main__":
    unittest.main()

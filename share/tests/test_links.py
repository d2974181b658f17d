"""Pages: what they link to is there, and so are the modules that the page on share/ names."""
import re
import unittest
from pathlib import Path

TOP = Path(__file__).resolve().parents[2]
NOT_OURS = {"out", "target", "node_modules"}
CODE = re.compile(r"^```.*?^```|^    [^\n]*|`[^`]+`", re.DOTALL | re.MULTILINE)


class Links(unittest.TestCase):
    """What pages name."""

    def test_each_link_leads_somewhere(self) -> None:
        for page in (one for one in TOP.rglob("*.md") if not NOT_OURS & {*one.relative_to(TOP).parts}):
            for path, anchor in re.findall(r"\]\((?!\w+:)([^)\s#]*)#?([^)\s]*)\)", CODE.sub("", page.read_text())):
                target = page.parent / path if path else page
                self.assertTrue(target.exists(), f"{page}: {path}")
                headings = re.findall(r"^#+ (.*)", target.read_text(), re.MULTILINE) if anchor else []
                slugs = {re.sub(r"[^\w\- ]", "", heading.lower()).replace(" ", "-") for heading in headings}
                self.assertIn(anchor, slugs | {""}, f"{page}: {path}#{anchor}")

    def test_modules_of_share_are_where_the_page_says(self) -> None:
        for name in re.findall(r"`([\w/]+\.py)`", (TOP / "docs/SHARE-INSIDE.md").read_text()):
            self.assertTrue(any((TOP / "share").glob(f"**/{name}")), name)

    def test_each_attack_has_tests_that_are_there(self) -> None:
        _, _, table = (TOP / "docs/NOTES.md").read_text().partition("## Attacks")
        _, _, *rows = [line.strip("|").split("|") for line in table.splitlines() if line.startswith("|")]
        tests = {name for path in (TOP / "share/tests").glob("test_*.py") for name in re.findall(r"    def (test_\w+)\(", path.read_text())}
        self.assertGreater(len(rows), 5)
        for who, _, _, named in rows:
            self.assertLessEqual({*named.strip().split(", ")}, tests, who)


if __name__ == "__main__":
    unittest.main()

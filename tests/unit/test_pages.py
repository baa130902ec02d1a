"""What the tools say beside what the pages say, and the pages' links."""

import os
import re
import unittest

import places  # First, since it says where the tools are.
from gfxtools import limits, recording, refusals


def page(*names):
    with open(os.path.join(places.TOP, *names), encoding="utf-8") as file:
        return file.read()


def without_code(text):
    return re.sub(r"^```.*?^```", "", text, flags=re.M | re.S)


def anchors(text):
    """Where a link into a page may lead: its headings, in small letters, words joined by dashes."""
    heads = re.findall(r"^#+ (.*)$", without_code(text), re.M)
    heads = [re.sub(r"\[(.*?)\]\(.*?\)", r"\1", head) for head in heads]
    return {re.sub(r"[^\w\- ]", "", head).lower().replace(" ", "-") for head in heads}


def all_pages():
    """The names of all pages."""
    names = [name for name in os.listdir(places.TOP) if name.endswith(".md")]
    return sorted(names + [os.path.join(folder, name) for folder in ("docs", "tools", "examples")
                           for name in os.listdir(os.path.join(places.TOP, folder)) if name.endswith(".md")])


def is_broken(name, link):
    """Whether a link of a page leads nowhere."""
    to, _, anchor = link.partition("#")
    place = os.path.normpath(os.path.join(places.TOP, os.path.dirname(name), to)) if to else os.path.join(places.TOP, name)
    return "://" not in link and (not os.path.exists(place) or anchor and anchor not in anchors(page(place)))


class Tables(unittest.TestCase):
    def test_refusals(self):
        profile = page("docs", "PROFILE.md")
        rows = re.findall(r"^\| (\d+) \| (\w+) \| (.*) \|$", profile[profile.index("## Refusals"):], re.M)
        self.assertEqual({int(number): (name, why) for number, name, why in rows}, refusals.NAMES)

    def test_faults_of_scripts(self):
        scripts = page("docs", "SCRIPTS.md")
        told = scripts[scripts.index("## What a fault is told as"):scripts.index("## The order of checks")]
        faults = {name for names in re.findall(r"^\| (\w+(?:, \w+)*) \|", told, re.M) for name in names.split(", ")}
        self.assertEqual(faults - {"Kind"}, set(refusals.SCRIPT_FAULTS))

    def test_messages(self):
        ids = re.findall(r"^\| 0x(\w\w) \| (\w+) \| RDPGFX", page("docs", "FORMATS.md"), re.M)
        self.assertEqual({int(number, 16): name for number, name in ids},
                         {number: name for number, (name, _) in recording.READERS.items()})

    def test_the_versions_are_known_by_their_names(self):
        for name, number in limits.VERSIONS.items():
            self.assertEqual(recording.VERSIONS[number], name)


class Pages(unittest.TestCase):
    def test_links_lead_somewhere(self):
        for name in all_pages():
            for link in re.findall(r"\]\(([^)\s]+)\)", without_code(page(name))):
                self.assertFalse(is_broken(name, link), f"{name}: {link}")

    def test_the_version(self):
        version = page("VERSION").strip()
        self.assertIn(f"Version {version} (", page("README.md"))
        self.assertEqual(re.search(r"^## (?!Not numbered yet)(.*)$", page("CHANGELOG.md"), re.M)[1], version)


if __name__ == "__main__":
    unittest.main()

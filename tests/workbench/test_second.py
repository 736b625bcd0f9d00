"""The second checker inside the page of a dossier: what it shows there, run by Node.js with the few things of a page that it needs."""
from __future__ import annotations

import json
import re
import shutil
import subprocess
import unittest

from tests.workbench.setting import EXAMPLES, ToolCase

PLANT = [EXAMPLES / "plant.json", EXAMPLES / "plant-certificate.json"]
DIGEST = "909cdc1079ea6b65a3ced422c030d034ca5b5c60bb14962587855a87d2796d15"
# a page of which the script asks for two links and one line
STUB = """
const links = LINKS, line = { textContent: "", className: "" };
const document = {
    getElementById: (name) => (name === "second" ? line : null),
    querySelector: (asked) => ({ getAttribute: () => links[asked] }),
};
"""
LINK = re.compile(r'<a href="(data:[^"]*)"[^>]* data-carries="(set|cert)"')
SCRIPT = re.compile(r"<script>\n(.*?)</script>", re.S)
TOOK = re.compile(r" It took [0-9.]+ ms,")


@unittest.skipIf(shutil.which("node") is None, "node is missing: apt-get install nodejs")
class Judged(ToolCase):
    """What the page shows."""

    def shown(self, page: str) -> tuple[str, str]:
        """The text and the class of the line, after the page's script has run."""
        links = {f"a[data-carries={word}]": href for href, word in LINK.findall(page)}
        scripts = SCRIPT.findall(page)
        self.assertEqual((len(links), len(scripts)), (2, 1))
        text = STUB.replace("LINKS", json.dumps(links)) + f"(function (module, require) {{{scripts[0]}}})();" + "console.log(JSON.stringify([line.textContent, line.className]));"
        ran = subprocess.run(["node", self.file("page.js", text)], capture_output=True, text=True)
        self.assertEqual(ran.stderr, "")
        said, kind = json.loads(ran.stdout)
        return TOOK.sub("", said), kind

    def test_a_valid_certificate(self) -> None:
        page = self.assert_done(self.tool("dossier", "fmlp+", *PLANT))
        said = f"Judged again in this browser: valid. over the 1193 bytes of the set and the 617 bytes of the certificate that this page carries. The set's digest came out as {DIGEST}."
        self.assertEqual(self.shown(page), (said, "second yes"))

    def test_a_page_whose_certificate_was_changed(self) -> None:
        page = self.assert_done(self.tool("dossier", "fmlp+", *PLANT))
        other = self.assert_done(self.tool("dossier", "fmlp+", *PLANT)).replace('const PROTOCOL = "fmlp+"', 'const PROTOCOL = "mpcp"')
        self.assertNotEqual(page, other)
        said, kind = self.shown(other)
        self.assertEqual((said.partition(". ")[0], kind), ("Judged again in this browser: refused cert otherprotocol", "second no"))

    def test_bytes_that_cannot_be_read(self) -> None:
        page = self.assert_done(self.tool("dossier", "fmlp+", *PLANT))
        broken = page.replace("data:application/json;base64,", "data:application/json;base64,\u00e9", 1)
        said, kind = self.shown(broken)
        self.assertEqual((said.startswith("The second checker came to no answer in this browser: "), kind), (True, "second no"))

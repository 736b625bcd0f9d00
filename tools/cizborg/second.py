"""The second checker inside a page: it judges the files that the page carries when the page is opened."""
from __future__ import annotations

import json
from pathlib import Path

from .pages import element, paragraph, section

CHECKER = Path(__file__).resolve().parent.parent / "second_check.js"
# how the links that carry the files are found
MARK = "data_carries"

JUDGE = """
(function () {
    "use strict";
    const shown = document.getElementById("second");
    function bytes_of(word) {
        const href = document.querySelector("a[data-carries=" + word + "]").getAttribute("href");
        return Uint8Array.from(atob(href.slice(href.indexOf(",") + 1)), (character) => character.charCodeAt(0));
    }
    function told(text, kind) {
        shown.textContent = text;
        shown.className = "second " + kind;
    }
    try {
        const begin = performance.now();
        const set = bytes_of("set"), cert = bytes_of("cert");
        const answer = SecondCheck.judge("check", PROTOCOL, (word) => (word === "set" ? set : cert));
        const took = (performance.now() - begin).toFixed(1);
        told("Judged again in this browser: " + answer.text.trim() + ". It took " + took + " ms, over the " + set.length + " bytes of the set and the " + cert.length
            + " bytes of the certificate that this page carries. The set's digest came out as " + SecondCheck.digest_of(set) + ".", answer.status === 0 ? "yes" : "no");
    } catch (error) {
        told("The second checker came to no answer in this browser: " + error.message, "no");
    }
})();
"""


def script_of(protocol: str) -> str:
    """The checker, and what has it judge the set and the certificate of the page."""
    text = f'{CHECKER.read_text(encoding="utf-8").partition(chr(10))[2]}\nconst PROTOCOL = {json.dumps(protocol)};\n{JUDGE}'
    if "</script" in text:
        raise ValueError("a script can't hold the end of a script")
    return f"<script>\n{text}</script>"


def judged_again(protocol: str) -> str:
    """The section of the page. It stands behind the links that carry the files, and isn't printed."""
    said = paragraph(
        "The line above comes from a second checker that this page carries, `tools/second_check.js`. It judged the files of the table above as you opened the page, without "
        "a network. It was written in JavaScript from the documents of the tool, forms each task's blocking program anew, and shares no code with the program. **It proves "
        "nothing**: a browser ran it, and nobody has proved it. But a mistake of the program would have to be in it too."
    )
    waiting = element("p", "This browser runs no scripts, so the second checker has not judged.", id="second", class_="second")
    return section("Judged again in this browser", waiting, said, script_of(protocol)).replace("<section ", '<section class="screen" ', 1)

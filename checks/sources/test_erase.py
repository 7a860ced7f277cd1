"""What tools/erase makes private, tests and says of calls for users, and which forms it refuses. Where it leaves too
much or too little of a source, that doesn't compile; that the rest stays, token by token, it checks itself."""
import importlib.machinery
import importlib.util
import sys
import unittest

sys.path.insert(0, "tools")
from pages import ROOT

loader = importlib.machinery.SourceFileLoader("erase", str(ROOT / "tools/erase"))
erase = importlib.util.module_from_spec(importlib.util.spec_from_loader("erase", loader))
loader.exec_module(erase)

ERASED = {
    "#[macro_export] macro_rules! m { () => {} } impl A { pub fn f(a: L) requires { b } {} pub fn g() {} }":
        "macro_rules! m { () => {} } impl A { pub(crate) fn f(a: L) {} pub fn g() {} }",
    "impl CoordTrait for A { fn at(&self, n: B) { self.x() } }":
        "impl CoordTrait for A { fn word_at(&self, n: B) { crate::below!(n, self.dim().size()); self.x_word() } }",
    "/// Puts it (docs/A.md). The proof sees it so.\n///\n/// Rejected as `f` does.\nfn g() {}":
        "/// Puts it. /// /// # Errors /// /// Rejected as `f` does. fn g() {}",
}
REFUSED = {
    "fn f() ensures { g([1; }": "a bracket is open",
    "impl Drop for A { fn drop(self) { let A { a } = self; close(a); } }": "does more",
    "impl Model for A { ghost a: u8; fn f() { g(); } }": "does more",
}


class Erase(unittest.TestCase):
    def test_erased(self):
        for source, wanted in ERASED.items():
            output = erase.Eraser("wkb", "it", source).output()
            self.assertEqual(" ".join(output.split()), wanted)

    def test_asking(self):
        """A function that asks something of a caller is noted, so that rust/src doesn't make it public."""
        eraser = erase.Eraser("wkb", "it", "\npub fn f() requires { a } {}\npub fn g() {}")
        eraser.output()
        self.assertEqual(eraser.asking, {"f"})

    def test_refused(self):
        for source, why in REFUSED.items():
            with self.assertRaisesRegex(SystemExit, why):
                erase.Eraser("wkb", "it", source).output()

    def test_compared(self):
        """A step that writes another token, or joins two, is refused."""
        for change, why in ({"new": "g"}, "f became g"), ({"gap": ""}, "has other tokens"):
            eraser = erase.Eraser("wkb", "it", "fn f() {}")
            eraser.paths = lambda i: vars(eraser.tokens[1]).update(change)
            with self.assertRaisesRegex(SystemExit, why):
                eraser.output()

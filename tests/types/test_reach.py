"""Which lemmas `tools/lint` calls unreached: those to which no proof of a function leads, whatever else has their name."""
import shutil
import subprocess
import sys

from helpers import ROOT, Test

FILES = {
    # `single` is a variable here, and `apart` is the other file's, which Common passes on under another name.
    "crates/low/proofs/lib/same/Answers.antt":
        "use Rattle.low.proofs.Common.{far, inner}\n\npub returns : goal.returns\nreturns c = far (λ single. inner single) c.IsHeld\n",
    "crates/low/proofs/Common.antt":
        "pub use Rattle.low.proofs.Far.{apart as far}\npub use Rattle.low.proofs.Near.{inner}\n",
    "crates/low/proofs/Far.antt": "pub apart : ℕ\napart = below\n\nbelow : ℕ\nbelow = 1\n",
    # A module's lemmas reach each other. Nothing leads to `apart`, which calls itself, or to what it alone calls.
    "crates/low/proofs/Near.antt":
        "use Rattle.low.specs.Held.{IsHeld}\n\npub single : ℕ → IsHeld\nsingle v = v\n\nmodule _ (n : ℕ) where\n  step : ℕ\n  step = n\n\n"
        "  module _ (m : ℕ) where\n    pub inner : ℕ → ℕ\n    inner w = step\n\napart : ℕ\napart = alone apart\n\nalone : ℕ → ℕ\nalone v = v\n",
    # `IsKept` is in a contract, and `IsHeld` in no other place than a lemma that nothing reaches.
    "crates/low/specs/Held.antt": "abbrev pub IsHeld : Type 0\nIsHeld = ℕ\n\npub record IsKept (n : ℕ) : Type 0 where\n  pub held : ℕ\n",
    "crates/low/src/lib.rt": "ghost use Rattle.low.specs.Held.{IsKept};\n",
    "crates.txt": "low:\n",
}
UNREACHED = {("crates/low/proofs/Near.antt", "single"), ("crates/low/proofs/Near.antt", "apart"), ("crates/low/proofs/Near.antt", "alone"),
             ("crates/low/specs/Held.antt", "IsHeld")}


class OfReach(Test):
    def test_what_is_unreached(self):
        top = self.folder()
        (top / "tools").mkdir()
        for name in "reach.py", "repository.py":
            shutil.copy(ROOT / "tools" / name, top / "tools")
        for place, text in FILES.items():
            (top / place).parent.mkdir(parents=True, exist_ok=True)
            (top / place).write_text(text)
        told = subprocess.run([sys.executable, "-B", "-c", "import reach; print(reach.unreached())"], cwd=top / "tools", text=True,
                              stdout=subprocess.PIPE, check=True).stdout
        self.assertEqual(set(eval(told)), UNREACHED)

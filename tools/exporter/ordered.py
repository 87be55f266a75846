"""Whether a float is asked for its `min`, `max` or `clamp`, which would be another function of it in Rust. The rules know a method by its name,
so rustc is asked, of a copy of the crate in which these are methods of what has an order: of whole numbers, and of no float."""
import re
import shutil
import subprocess

import rules

TRAIT = """
trait Ordered: Ord + Sized {
    fn ordered_min(self, other: Self) -> Self {
        Ord::min(self, other)
    }

    fn ordered_max(self, other: Self) -> Self {
        Ord::max(self, other)
    }

    fn ordered_clamp(self, low: Self, high: Self) -> Self {
        Ord::clamp(self, low, high)
    }
}

impl<T: Ord> Ordered for T {}
"""


def of_floats(crate, room):
    """What rustc says against the copy; nothing where no float is asked."""
    shutil.rmtree(room, ignore_errors=True)
    shutil.copytree(crate, room)
    for path in (room / "src").rglob("*.rs"):
        text, count = re.subn(rf"\.\s*({'|'.join(sorted(rules.ORDERED))})\s*\(", r".ordered_\1(", path.read_text("utf-8"))
        path.write_text(text + "use crate::Ordered;\n" * (count > 0) + TRAIT * (path == room / "src/lib.rs"), "utf-8")
    words = ("rustc", "--cap-lints", "allow", "--edition", "2024", "--crate-type", "rlib", "--emit", "metadata", "--crate-name", "gateweave")
    done = subprocess.run([*words, "-o", room / "libgateweave.rmeta", room / "src/lib.rs"], capture_output=True, text=True)
    return done.stderr.strip() if done.returncode else ""

#!/usr/bin/env python3
"""Respells, in answers and invariants, the names that the checker makes: a name of the source keeps its underscores.

usage: python3 tools/mend_generated.py        once, at the top of the repository, after tools/respell.py

The older checker wrote `c.skip-blanks-place` for what the call of `skip_blanks` under `let place` tells; today's writes
`c.skip_blanks-place`, and its own words in snake case, as `in_ok` and `overflow_add`.
"""
import glob
import os
import re

# The checker's own words.
OWN = [
    "in_err", "in_ok", "in_default", "overflow_add", "overflow_sub", "overflow_mul", "overflow_shl", "overflow_shr",
    "overflow_cast", "overflow_step", "nonzero_div", "nonzero_rem", "slice_bounds", "offset_bounds", "invariant_of",
    "type_inv", "from_residual", "into_iter", "drop_glue", "unit_in",
]
NAME = re.compile(r"[^\s(){}\[\],;:\"«»⌜⌝|.]+")


def read(path):
    with open(path, encoding="utf-8") as f:
        return f.read()


def main():
    os.chdir(os.path.join(os.path.dirname(os.path.abspath(__file__)), ".."))
    changed = 0
    for crate in sorted(glob.glob("crates/*/")):
        source = "".join(read(p) for p in glob.glob(crate + "src/**/*.rt", recursive=True))
        words = sorted(set(re.findall(r"\b[a-z]\w*_\w+\b", source)) | set(OWN), key=len, reverse=True)
        forms = [(re.compile(r"(?<![\w'])" + w.replace("_", "-") + r"(?![\w'])"), w) for w in words]
        for path in glob.glob(crate + "proofs/**/*.antt", recursive=True):
            if os.path.basename(path) not in ("Answers.antt", "Invariants.antt", "Proof.antt"):
                continue
            text = read(path)
            # A name stands behind a dot, is answered (its type begins with `goal.`), or is taken from the goals.
            answered = set(re.findall(r"(?m)^(?:abbrev pub |pub )?(\S+) : goal\.", text))
            for m in re.finditer(r"(?m)^use [\w.+'-]*\.(?:Goals|Given)\.\{([^}]*)\}", text):
                answered |= {n.strip() for n in m.group(1).split(",")}

            def one(m):
                token = m.group(0)
                if "-" not in token or not (m.string[m.start() - 1 : m.start()] == "." or token in answered):
                    return token
                for form, word in forms:
                    token = form.sub(word, token)
                return token

            new = NAME.sub(one, text)
            if new != text:
                changed += 1
                with open(path, "w", encoding="utf-8") as f:
                    f.write(new)
    print(f"{changed} files changed")


if __name__ == "__main__":
    main()

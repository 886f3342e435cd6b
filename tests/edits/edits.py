"""Tries each edit of a must-fail file that holds several by itself, and sees that the prover refuses it because a fact fails.

`rt ci` applies all edits of a file at once, and a file is refused if one of them is. So here each edit of such a file, behind a line `edit: NAME`, becomes a
file of its own in a copy of the repository, and `rt must-fail` tries them there, over what the checks of this checkout kept. A complaint that a proof names
what an edit took away, or a limit of the prover, shows nothing of a contract, and the edit fails. (The files with one edit are tried by `rt ci` itself.)"""
import pathlib
import re
import shutil
import subprocess
import sys
import tempfile

# What `rt must-fail` says of an edit.
SAID = re.compile(r"^(?:rt: )?must-fail (\w+)/([\w.-]+)\.edit: (.*)$", re.M)
REFUSED = re.compile(r"refused, as it must be(?! \(only)")


def edits_of(path):
    """The edits of a file that holds several: the name of each, and its lines."""
    parts, before = [], True
    for line in path.read_text(encoding="utf-8").splitlines():
        if line.startswith("edit: "):
            parts.append((line.removeprefix("edit: ").strip(), []))
            before = False
        elif not before:
            parts[-1][1].append(line)
    return parts


def explode(crate, to):
    """Writes each edit of the crate's files with several into a file of its own; how many there are."""
    count = 0
    for path in sorted((crate / "must-fail").glob("*.edit")):
        for name, lines in edits_of(path):
            target = to / "must-fail" / f"{name}.edit"
            if target.exists():
                sys.exit(f"{path}: two edits are called {name}")
            target.parent.mkdir(exist_ok=True)
            target.write_text("\n".join(lines) + "\n", encoding="utf-8")
            count += 1
    return count


def main():
    wanted = sys.argv[1:]
    passed = failed = 0
    with tempfile.TemporaryDirectory(prefix="narguvesh-edits-") as room:
        root = pathlib.Path(room)
        shutil.copy("crates.txt", root)
        total = {}
        for crate in sorted(pathlib.Path("crates").iterdir()):
            to = root / "crates" / crate.name
            for part in ("src", "specs", "proofs"):
                if (crate / part).is_dir():
                    shutil.copytree(crate / part, to / part)
            if not wanted or crate.name in wanted:
                total[crate.name] = explode(crate, to)
        names = [name for name, count in total.items() if count]
        done = subprocess.run(["rt", "must-fail", *names], cwd=room, stdin=subprocess.DEVNULL, stdout=subprocess.PIPE, stderr=subprocess.STDOUT, text=True, errors="replace", check=False)
        told = SAID.findall(done.stdout)
        for crate, name, why in told:
            good = bool(REFUSED.match(why))
            passed += good
            failed += not good
            print(f"{crate}/{name}: {'' if good else 'FAILED: '}{why[:200]}")
        untold = sum(total.values()) - len(told)
        if untold:
            failed += untold
            print(done.stdout[-3000:])
            print(f"{untold} edits were not tried")
    print(f"{passed} passed, {failed} failed")
    return 1 if failed or not passed else 0


if __name__ == "__main__":
    sys.exit(main())

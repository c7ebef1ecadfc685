"""Checks crates, and copies of them, with the prover of the kit over the libraries that a run of `rt ci` has built.

`rt ci` says of an edit whether it is refused, and not in which functions and why; and of a program that an earlier run
proved it does not say again what it assumes. Both are asked of the prover here, in the same words as `rt ci` asks it.

rattle_kit.py FOLDER makes the libraries in a new folder."""
import os
import shutil
import subprocess
import sys
import tempfile

from rattle_text import below, crates

PARTS = ("src", "specs", "proofs")


def kit():
    """The kit's folder."""
    return os.path.dirname(subprocess.run(["rt", "doc"], stdout=subprocess.PIPE, check=True, text=True).stdout.strip())


def make_libraries(folder):
    """Copies the crates to a folder and runs `rt ci` there, which takes what an earlier run of the same files has proved; whether it passes."""
    shutil.copytree("crates", folder + "/crates", ignore=lambda at, names: ["out"] if at.count("/") == 1 else [])
    for name in ("crates.txt", "HANDLES"):
        if os.path.exists(name):
            shutil.copy(name, folder)
    os.mkdir(folder + "/.git")
    ran = subprocess.run(["rt", "ci"], cwd=folder, stdout=subprocess.PIPE, stderr=subprocess.STDOUT, text=True, errors="replace")
    if ran.returncode:
        print("\n".join(ran.stdout.rstrip("\n").split("\n")[-12:] + ["rt ci does not pass over a copy of the crates, so nothing can be looked at"]))
    return ran.returncode == 0


class Libraries:
    """The folder in which `rt ci` has built every library from the files that stand here: the one that is given, or else a copy that is made for it and then removed."""

    def __init__(self, given=None):
        self.made = None if given else tempfile.mkdtemp(prefix="libraries-")
        self.root, self.kit, self.uses = os.path.abspath(given or self.made), kit(), crates()

    def __enter__(self):
        if self.made and not make_libraries(self.root):
            self.__exit__()
            raise SystemExit(1)
        return self

    def __exit__(self, *why):
        if self.made:
            shutil.rmtree(self.made, ignore_errors=True)

    def library(self, crate):
        return "%s/crates/%s/out/rlib/%s.rlib" % (self.root, crate, crate)

    def words(self, crate):
        """The command that checks a crate in the folder that holds its src/, specs/ and proofs/."""
        uses, at = self.uses[crate], self.kit
        words = [at + "/bin/rattle", "check", "--crate-name", crate, "src/main.rt" if os.path.exists("crates/%s/src/main.rt" % crate) else "src/lib.rt"]
        for name in ["std"] + [name for name in uses if name not in self.uses]:
            words += ["--extern", "%s=%s/rlibs/%s.rlib" % (name, at, name)]
        words += ["-L", "dependency=%s/rlibs" % at]
        for name in uses:
            if name in self.uses:
                words += ["--extern", "%s=%s" % (name, self.library(name))]
        for name in below(crate, self.uses):
            words += ["-L", "dependency=" + os.path.dirname(self.library(name))]
        return words + ["--antt-project", at + "/rattle/logic/antt-project.json", "--logic-built", at + "/logic_built", "--links", crate + "="]

    def check(self, crate, folder, *flags):
        """(exit status, what the prover says) of a crate's files in a folder."""
        words = self.words(crate) + list(flags)
        ran = subprocess.run(words, cwd=folder, stdin=subprocess.DEVNULL, stdout=subprocess.PIPE, stderr=subprocess.STDOUT, text=True, errors="replace")
        return ran.returncode, ran.stdout


def copied(crate, folder, texts):
    """Copies a crate's files into a folder, with these texts in place of its own."""
    for part in PARTS:
        if os.path.isdir("crates/%s/%s" % (crate, part)):
            shutil.copytree("crates/%s/%s" % (crate, part), "%s/%s" % (folder, part))
    for path, words in texts.items():
        with open("%s/%s" % (folder, path), "w", encoding="utf-8") as f:
            f.write(words)


if __name__ == "__main__":
    os.makedirs(sys.argv[1])
    sys.exit(not make_libraries(sys.argv[1]))

"""What is handed on: both archives and the package, made twice, and installed without the kit by a user that isn't
root.

The repository that they are made of is a small one: this one's files without most of the crates, the examples and the
proofs, of which one of 6 by 4 is tried in place of that of the usual board. A script stands in place of the program
where it has to count as proved, and nothing is built or proved here.
"""

import os
import pathlib
import re
import shutil
import subprocess
import tarfile
import unittest

from common import TOP, ToolTest, program, read, write
import victor

NEEDED = ("git", "make", "tar", "xz", "dpkg-deb", "dpkg-shlibdeps")
MISSING = [name for name in NEEDED if not shutil.which(name)]
BUILT = ("out", "__pycache__", "wrong-bodies", "must-fail", ".git")
NAMES = ".ci .gitignore CHANGELOG.md CONTRIBUTING.md HANDLES Makefile README.md crates.txt victor victor.1".split()
NAMES += "crates/victor docs examples proofs tools".split()
KEPT = re.compile(r"proofs/(README.md|boards.csv|6-by-4.txt.xz)|examples/(README.md|runs|usual-board.*)")
# A commit has the same name wherever it is made.
WHO = {f"GIT_{role}_{what}": "nobody@localhost" for role in ("AUTHOR", "COMMITTER") for what in ("NAME", "EMAIL")}
WHEN = {"GIT_AUTHOR_DATE": "2026-11-30T12:00:00+0000", "GIT_COMMITTER_DATE": "2026-11-30T12:00:00+0000"}
STUB = "#!/bin/sh\ncat >/dev/null\necho accepted win 2\n"


def environment(**more):
    """That of a call, with fast packing and without what a caller may have set."""
    kept = {name: text for name, text in os.environ.items() if name not in ("SOURCE_DATE_EPOCH", "DIST", "UNPROVED")}
    return {**kept, **WHO, **WHEN, "XZ_LEVEL": "0", "VICTOR_EXPLAIN": "", **more}


def small_copy(folder, mask):
    """A repository with one commit below the folder, whose files have the modes of this mask."""
    source = pathlib.Path(folder) / "source"
    for name in NAMES:
        path, to = pathlib.Path(TOP) / name, source / name
        to.parent.mkdir(parents=True, exist_ok=True)
        if path.is_dir():
            shutil.copytree(path, to, ignore=shutil.ignore_patterns(*BUILT, "solve", "engine", "openings"))
        elif path.is_file():
            shutil.copy(path, to)
    for path in [*source.glob("proofs/**/*"), *source.glob("examples/**/*")]:
        if path.is_file() and not KEPT.fullmatch(path.relative_to(source).as_posix()):
            path.unlink()
    shutil.copytree(os.path.join(TOP, "tools", "solve"), source / "tools" / "solve", ignore=only_sources)
    install = source / "docs" / "INSTALL.md"
    write(install, read(install).replace("proofs/usual-board.txt.xz", "proofs/6-by-4.txt.xz"))
    modes = "u=rwX,go=" if mask & 0o055 else "u=rwX,go=rX"
    lines = f"umask {mask:o} && chmod -R {modes} . && git init -q . && git add -A && git commit -qm all"
    subprocess.run(["bash", "-c", lines], cwd=source, env=environment(), check=True, capture_output=True)
    return source


def only_sources(_, names):
    """What was built of tools/solve, which isn't copied."""
    return [name for name in names if "." not in name and name != "Makefile"]


def put_search(source, out):
    """Programs that stand in place of the fast search, newer than its sources."""
    build = pathlib.Path(out) / "build"
    build.mkdir(parents=True)
    for path in (source / "tools" / "solve").iterdir():
        shutil.copy2(path, build)
    for name in ("solve", "engine"):
        shutil.copy(os.path.realpath(shutil.which("true", path="/usr/bin:/bin")), build / name)


def make(source, *words, **more):
    """A call of make there, which isn't waited for in vain."""
    return subprocess.run(
        ["make", "-s", *words], cwd=source, env=environment(**more), capture_output=True, text=True, timeout=100
    )


@unittest.skipIf(MISSING, f"skipped, as there is no {', '.join(MISSING)}")
class DistTest(ToolTest):
    def made(self, source, *words, **more):
        """What a call of make writes, which has to succeed."""
        done = make(source, *words, **more)
        self.assertEqual(done.returncode, 0, done.stdout + done.stderr)
        return done.stdout + done.stderr

    def test_twice(self):
        """Elsewhere and with other modes of files the same bytes come, and what comes runs without the kit."""
        sums = []
        for mask in (0o022, 0o077):
            source = small_copy(self.folder_for("dist test-"), mask)
            put_search(source, source / "dist")
            said = self.made(source, "dist", "deb", UNPROVED=program())
            self.assertIn("no licence is chosen", said)
            sums.append(read(source / "dist" / "SHA256SUMS"))
        self.assertEqual(*sums)
        names = [line.split()[1] for line in sums[0].splitlines()]
        first = f"victor-{victor.__version__}"
        unproved = [f"{first}-unproved-linux-x86_64.tar.xz", f"victor_{victor.__version__}~unproved_amd64.deb"]
        self.assertEqual(sorted(names), sorted([f"{first}.tar.xz", *unproved]))
        self.assertIn("dist: 15 passed, 0 failed", self.made(source, "check-dist"))
        self.check_owners(source / "dist" / f"{first}-unproved-linux-x86_64.tar.xz")
        self.check_sources(source / "dist" / f"{first}.tar.xz")

    def check_owners(self, archive):
        """Nobody owns what is packed, and all of it can be read by all."""
        with tarfile.open(archive) as members:
            found = [(member.uid, member.gid, member.uname, member.mode & 0o044) for member in members]
        self.assertEqual(set(found), {(0, 0, "", 0o044)})

    def check_sources(self, archive):
        """The sources are all files of the commit, and `make` and `make try` there say in one line what they lack."""
        room = self.folder_for("sources test-")
        subprocess.run(["tar", "-C", room, "-xf", archive], check=True)
        (top,) = pathlib.Path(room).iterdir()
        self.assertTrue((top / "crates" / "victor" / "src").is_dir() and (top / "proofs" / "boards.csv").is_file())
        for words in ((), ("try",)):
            done = make(top, *words, PATH="/usr/bin:/bin")
            lines = [line for line in done.stderr.splitlines() if not line.startswith("make")]
            self.assertEqual((done.returncode, len(lines)), (2, 1), done.stderr)
            self.assertRegex(lines[0], "there is no rt on the path.*README.md")

    def test_proved_alone(self):
        """Only a program that is noted as proved and current is taken, from files that are those of the commit."""
        source = small_copy(self.folder_for("dist test-"), 0o022)
        put_search(source, source / "dist")
        self.refuses_dist(source, "no program stands there that is proved and built from these sources")
        out = source / "crates" / "victor" / "out"
        out.mkdir()
        write(out / "victor", STUB, is_program=True)
        self.refuses_dist(source, "no program stands there")
        subprocess.run(
            ["bash", "-c", '. ./victor && note_built "$(sum_sources)"'], cwd=source, check=True, capture_output=True
        )
        self.assertIn("dist: program: proved, built from these sources", self.made(source, "dist"))
        archive = source / "dist" / f"victor-{victor.__version__}-linux-x86_64.tar.xz"
        with tarfile.open(archive) as members:
            packed = members.extractfile(f"victor-{victor.__version__}-linux-x86_64/lib/victor/victor")
            self.assertEqual(packed.read(), STUB.encode())
        with open(source / "crates.txt", "a", encoding="ascii") as crates:
            crates.write("# more\n")
        self.refuses_dist(source, "files have changed since the last commit")

    def refuses_dist(self, source, said):
        """One line, and status 2."""
        done = make(source, "dist")
        lines = [line for line in done.stderr.splitlines() if not line.startswith("make")]
        self.assertEqual((done.returncode, len(lines)), (2, 1), done.stderr)
        self.assertIn(said, lines[0])


class VersionTest(ToolTest):
    def test_one_version(self):
        """All that name the version have that of the newest section of the changes."""
        newest = re.search(r"^## (\S+)", read(os.path.join(TOP, "CHANGELOG.md")), re.MULTILINE).group(1).rstrip(",")
        self.assertRegex(newest, r"^\d+\.\d+\.\d+$")
        self.assertEqual(victor.__version__, newest)
        self.assertIn(f'\nversion = "{newest}"\n', read(os.path.join(TOP, "tools", "pyproject.toml")))
        self.assertRegex(read(os.path.join(TOP, "victor.1")), rf'(?m)^\.TH VICTOR 1 \S+ "victor {re.escape(newest)}"')


if __name__ == "__main__":
    unittest.main()

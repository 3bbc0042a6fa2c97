"""Makes the packages, installs them, runs what was installed, and removes it."""

import os
import re
import shutil
import subprocess

import commands
import companion
import harness
import packages

PATIENCE = 600
# Three boards of a seed, and how their text begins.
MAKE = ["make", "--seed", "3469703443", "--candidates", "3"]


def told(words, **environment):
    """The status and the two texts of a command."""
    end = subprocess.run(
        words, stdin=subprocess.DEVNULL, capture_output=True, timeout=PATIENCE, env={**os.environ, **environment}
    )
    return end.returncode, end.stdout, end.stderr


def build(top, folder):
    """The package and the tarball, made in a folder."""
    subprocess.run([top / "package" / "build", folder], check=True, stdout=subprocess.DEVNULL, timeout=PATIENCE)
    return [next(folder.glob("deals_*_amd64.deb")), next(folder.glob("deals-*-linux-x86_64.tar.gz"))]


def need_tools():
    for package, tool in (("dpkg", "dpkg-deb"), ("binutils", "readelf")):
        packages.need(package, tool)


def copied(folder):
    """The checkout, copied to another path with what was built."""
    top = folder / "another checkout"
    kept = shutil.ignore_patterns("out", "__pycache__", "*.edit")
    shutil.copytree(harness.TOP, top, symlinks=True, ignore=kept)
    out = top / "crates" / "deals" / "out"
    out.mkdir()
    for name in ("deals", "built-from"):
        shutil.copy2(harness.PROGRAM.parent / name, out)
    return top


def check_made(folder):
    """Two builds in two folders give the same bytes, and the package has what it has to have."""
    need_tools()
    (folder / "one").mkdir()
    (folder / "two").mkdir()
    first = build(harness.TOP, folder / "one")
    old = os.umask(0o077)
    try:
        second = build(copied(folder), folder / "two")
    finally:
        os.umask(old)
    for one, two in zip(first, second):
        yield f"made twice, {one.suffix}", one.name == two.name and one.read_bytes() == two.read_bytes()
    _, out, _ = told(["dpkg-deb", "-c", first[0]])
    listed = {line.split()[5].decode(): line.split()[:2] for line in out.splitlines()}
    files = ["./usr/bin/deals", "./usr/share/man/man1/deals.1.gz", "./usr/share/bash-completion/completions/deals"]
    files += ["./usr/share/zsh/vendor-completions/_deals", "./usr/share/fish/vendor_completions.d/deals.fish"]
    doc = "./usr/share/doc/deals/"
    files += [doc + name for name in ("copyright", "changelog.gz", "README.md", "docs/GUIDE.md", "examples/suit-slam.cond")]
    yield "the package's files", all(name in listed for name in files)
    named = re.findall(r"/usr/share/doc/deals/[\w./-]*", commands.plain(commands.MAN.read_text(encoding="utf-8")))
    yield "the files that the man page names", bool(named) and all("." + name in listed for name in named)
    yield from linked(first[0], folder / "pages")
    right = all(owner == b"root/root" and mode[5:6] != b"w" for mode, owner in listed.values())
    yield "the package's owners and rights", right
    scripts = [doc + "examples/" + name for name in ("night", "shard", "resume", "search.slurm")]
    yield "the package's scripts can be run", all(listed[name][0] == b"-rwxr-xr-x" for name in scripts)
    _, out, _ = told(["dpkg-deb", "-f", first[0], "Version"])
    yield "the package's version", b"deals " + out == told([harness.PROGRAM, "--version"])[1]
    _, out, _ = told(["dpkg-deb", "-f", first[0], "Suggests"])
    yield "what the package suggests", out == b"parallel\n"


# A link of a page to another file.
LINK = re.compile(r"\]\((?!https?:|#)([^)#\s]+)[^)]*\)")


def linked(package, folder):
    """Each link of an installed page leads to an installed file."""
    subprocess.run(["dpkg-deb", "-x", package, folder], check=True)
    for page in sorted((folder / "usr/share/doc/deals").rglob("*.md")):
        targets = LINK.findall(page.read_text(encoding="utf-8"))
        missing = [target for target in targets if not (page.parent / target).exists()]
        yield f"the links of {page.name}{': ' if missing else ''}{', '.join(missing)}", not missing


def check_lint(folder):
    need_tools()
    packages.need("lintian", "lintian")
    [package] = (folder / "one").glob("*.deb")
    words = ["lintian", "--fail-on", "error,warning", "--info", package]
    status, out, err = told(words, LC_ALL="C.UTF-8")
    if status != 0 or out:
        print(out.decode(errors="replace") + err.decode(errors="replace"))
    yield "lintian", status == 0 and out == b""


def check_program(folder):
    """The program of the package is the built one, and hardened."""
    need_tools()
    [package] = (folder / "one").glob("*.deb")
    root = folder / "unpacked"
    subprocess.run(["dpkg-deb", "-x", package, root], check=True)
    program = root / "usr/bin/deals"
    yield "the package's program runs", told([program, *MAKE])[:2] == told([harness.PROGRAM, *MAKE])[:2]
    headers = told(["readelf", "-Wlh", program])[1].decode()
    dynamic = told(["readelf", "-Wd", program])[1].decode()
    yield "position-independent", "DYN (Position-Independent" in headers
    stack = [line.split() for line in headers.splitlines() if "GNU_STACK" in line]
    yield "the stack isn't executable", len(stack) == 1 and "E" not in stack[0][6]
    yield "full RELRO", "GNU_RELRO" in headers and "NOW" in dynamic
    yield "no path in it", "RPATH" not in dynamic and "RUNPATH" not in dynamic


def check_tarball(folder):
    """The tarball installs below a folder, twice, and is removed without a trace."""
    need_tools()
    [tarball] = (folder / "one").glob("*.tar.gz")
    subprocess.run(["tar", "-xzf", tarball, "-C", folder], check=True)
    [unpacked] = folder.glob("deals-*-linux-x86_64")
    prefix = folder / "a prefix"
    kept = prefix / "share" / "man" / "man1" / "other.1"
    kept.parent.mkdir(parents=True)
    kept.write_text("")
    install = ["sh", unpacked / "install.sh", prefix]
    (prefix / "bin" / "deals").mkdir(parents=True)
    status, out, err = told(install)
    left = [path for path in prefix.rglob("*") if path.is_file()]
    right = (status, out, left) == (1, b"", [kept]) and b"bin/deals is a folder" in err
    yield "the tarball, over a folder", right
    shutil.rmtree(prefix / "bin")
    (prefix / "share/doc/deals/installed").mkdir(parents=True)
    yield "the tarball, over a folder for its list", told(install)[0] == 1
    shutil.rmtree(prefix / "share/doc")
    for _ in range(2):
        status, out, err = told(install)
        yield "the tarball installs", (status, err) == (0, b"") and out.startswith(b"deals is in ")
    line = out.decode().splitlines()[1]
    found = told(["sh", "-c", line + "; command -v deals"])[1].decode().strip()
    yield "the last line puts it on the PATH", line.startswith("export PATH=") and found == str(prefix / "bin/deals")
    path = f"{os.environ['PATH']}:{prefix / 'bin'}"
    yield "and isn't written where it is on it", told(install, PATH=path) == (0, b"", b"")
    yield "and runs", told([prefix / "bin/deals", *MAKE])[:2] == told([harness.PROGRAM, *MAKE])[:2]
    status, out, _ = told(["man", "-M", prefix / "share/man", "-P", "cat", "deals"], LC_ALL="C.UTF-8", MANWIDTH="80")
    yield "and has a man page", status == 0 and b"NAME\n       deals" in out
    shutil.rmtree(unpacked)
    status, out, err = told(["sh", prefix / "share/doc/deals/install.sh", "--remove", prefix])
    left = [path for path in prefix.rglob("*") if path.is_file()]
    yield "and is removed", (status, out, err) == (0, b"", b"") and left == [kept]
    yield "with its folders", not (prefix / "bin").exists() and not (prefix / "share/doc").exists()


# A program of this name that fails for the file install.sh, which is copied last, and by a signal too.
FAILS = """#!/bin/sh
case $1 in */install.sh) %s ;; esac
exec /bin/cp "$@"
"""


def bytes_below(folder):
    """All files and folders, with the files' bytes."""
    return {path: path.read_bytes() if path.is_file() else None for path in folder.rglob("*")}


def stand_in(folder, version):
    """A tarball's folder with some files, one of which this version alone has."""
    for name in ("bin/deals", "share/doc/deals/README.md", f"share/doc/deals/{version}/only"):
        (folder / "files" / name).parent.mkdir(parents=True, exist_ok=True)
        (folder / "files" / name).write_text(version)
    shutil.copy(harness.TOP / "package" / "install.sh", folder)
    return folder / "install.sh"


def check_undone(folder):
    """Where a file can't be copied, nothing is installed, and an earlier version stays; a later one removes it."""
    old, new = (stand_in(folder / version, version) for version in ("old", "new"))
    prefix, tools = folder / "undone", folder / "tools"
    for path in (prefix, tools):
        path.mkdir()
    for way in ("exit 1", "kill -TERM $PPID"):
        (tools / "cp").write_text(FAILS % way)
        (tools / "cp").chmod(0o755)
        for script in (old, new):
            before = bytes_below(prefix)
            status, _, err = told(["sh", script, prefix], PATH=f"{tools}:{os.environ['PATH']}")
            right = status == 1 and b"nothing was installed" in err and bytes_below(prefix) == before
            yield f"{way}: {script.parent.name} is undone", right
            if script == old:
                yield f"{way}: old is installed", told(["sh", old, prefix])[0] == 0
        yield f"{way}: new is installed", told(["sh", new, prefix])[0] == 0
        files = {path.read_text() for path in prefix.rglob("*") if path.name in ("deals", "README.md", "only") and path.is_file()}
        yield f"{way}: nothing is left of old", files == {"new"} and not (prefix / "share/doc/deals/old").exists()
        yield f"{way}: all is removed", told(["sh", new, "--remove", prefix])[0] == 0 and not bytes_below(prefix)


def check_root(folder):
    """A Debian package is put into a root of its own, with the databases of dpkg alone, and removed."""
    need_tools()
    [package] = (folder / "one").glob("*.deb")
    root = folder / "root"
    for name in ("var/lib/dpkg/info", "var/lib/dpkg/updates", "var/lib/dpkg/triggers", "var/log"):
        (root / name).mkdir(parents=True)
    (root / "var/lib/dpkg/status").write_text("")
    words = ["dpkg", f"--root={root}", "--log=/dev/null", "--force-not-root", "--force-depends"]
    status, _, err = told([*words, "-i", package])
    yield "dpkg installs it", status == 0 and (root / "usr/bin/deals").is_file()
    status, _, err = told([*words, "--purge", "deals"])
    left = [path for path in (root / "usr").rglob("*")] if (root / "usr").exists() else []
    yield "dpkg removes it", status == 0 and left == []


QUICK = [check_made, check_lint, check_program, check_tarball, check_undone, check_root]


# A club night, as the guide has it.
NIGHT = """
seed=$(deals seed)
deals make --seed $seed --boards 4 --event "Club night" > night.pbn
deals-tricks < night.pbn > night.tricks
deals make --seed $seed --boards 4 --event "Club night" --format sheet --tricks < night.tricks > night.html
grep -c 'section class="board"' night.html
grep -c 'class="par"' night.html
rm night.pbn night.tricks night.html
sh /usr/share/doc/deals/examples/night 4 "Club night" tonight 2>/dev/null
grep -c 'class="par"' tonight/night.html
rm -r tonight
"""


class Clean:
    """A small Debian in a folder, as debootstrap makes it, with bash's completion, the program man and the solver."""

    def __init__(self, folder):
        self.root = folder / "debian"
        words = ["debootstrap", "--variant=minbase", "--include=bash-completion,man-db,libdds0", "bookworm", self.root]
        subprocess.run([*words], check=True, stdout=subprocess.DEVNULL, timeout=PATIENCE)

    def told(self, *words):
        return told(["chroot", self.root, *words], PATH="/usr/sbin:/usr/bin:/sbin:/bin", LC_ALL="C.UTF-8")

    def files(self):
        return {path for path in self.told("find", "/usr", "/etc", "/var/lib", "/opt", "-xdev")[1].splitlines()}


def check_clean(folder):
    """In a clean Debian: installed by apt, run, read, completed, removed."""
    if os.geteuid() != 0:
        raise packages.Missing("a clean Debian is made by root alone")
    packages.need("debootstrap", "debootstrap")
    clean = Clean(folder)
    before = clean.files()
    [package] = (folder / "one").glob("deals_*.deb")
    shutil.copy(package, clean.root / "deals.deb")
    status, _, err = clean.told("dpkg", "-i", "/deals.deb")
    yield "clean, installed", status == 0
    yield "clean, make", clean.told("deals", *MAKE) == (0, told([harness.PROGRAM, *MAKE])[1], b"")
    status, out, _ = clean.told("man", "-P", "cat", "deals")
    yield "clean, man", status == 0 and b"deals - deal bridge hands" in out
    slam = 'deals make --seed 7 --boards 1 --where "$(cat /usr/share/doc/deals/examples/suit-slam.cond)"'
    status, _, _ = clean.told("sh", "-c", slam)
    yield "clean, an example", status == 0
    shell = commands.Terminal(["chroot", str(clean.root), "bash", "--norc", "-i"], LC_ALL="C.UTF-8", HOME="/")
    shell.do("source /usr/share/bash-completion/bash_completion")
    shown, _ = shell.completed("deals make --w")
    yield "clean, --w in bash", "--where" in shown and "--workers" in shown
    shell.close()
    companion.build(folder / "one")
    [package] = (folder / "one").glob("deals-tricks_*.deb")
    shutil.copy(package, clean.root / "deals-tricks.deb")
    status, _, err = clean.told("dpkg", "-i", "/deals-tricks.deb")
    yield "clean, the companion", status == 0
    status, out, err = clean.told("sh", "-euc", NIGHT)
    yield "clean, a club night", (status, out, err) == (0, b"4\n4\n4\n", b"")
    status, _, err = clean.told("dpkg", "--purge", "deals", "deals-tricks")
    after = {path for path in clean.files() if b"/var/lib/dpkg/" not in path and b"/var/cache/" not in path}
    left = sorted(after - before)
    if left:
        print(left)
    yield "clean, removed without a trace", status == 0 and left == []


SLOW = [check_clean]

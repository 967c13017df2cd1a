"""A Debian package of an installed folder: `dpkg-deb` packs it, with the files that Debian asks of each package."""
import gzip
import hashlib
import os
import re
import shutil
import subprocess

from sigc.call import compiler

CONTROL = """Package: sigc
Version: {version}
Architecture: amd64
Maintainer: {maintainer}
Installed-Size: {size}
Depends: libc6, libgcc-s1, python3
Suggests: gcc, graphviz, gtkwave, z3
Section: devel
Priority: optional
Description: compiler for the kernel of SIGNAL
 sigc checks, compiles and runs programs of the synchronous language SIGNAL.
 Its scripts explain refusals, draw and compare runs, prove properties and
 write programs in C.
 .
 {proved}
"""
CHANGES = """sigc ({version}) unstable; urgency=medium

  * {line}

 -- {maintainer}  {date}
"""
COPYRIGHT = """sigc
Copyright: the authors of sigc

The sources come without a licence: nobody has been given permission to copy, change or distribute sigc.
"""
PROVED = {True: "Nothing was proved of this program: it is for trying things out.", False: "Every crate of the compiler was proved in Rattle."}


def packed(installed: str, folder: str, version: str, is_unproved: bool) -> str:
    """Packs a folder that has `usr` with an installed sigc, and returns the path of the package."""
    if not shutil.which("dpkg-deb"):
        raise compiler.NoProgram("dpkg-deb is missing: apt-get install dpkg")
    words = {"version": version, "maintainer": maintainer(), "proved": PROVED[is_unproved]}
    move_completion(installed)
    strip(f"{installed}/usr/lib/sigc/program")
    date = subprocess.run(["date", "-R", "-r", f"{installed}/usr/lib/sigc/program"], capture_output=True, text=True).stdout.strip()
    documents = f"{installed}/usr/share/doc/sigc"
    os.makedirs(documents)
    write(f"{documents}/copyright", COPYRIGHT)
    with open(f"{documents}/changelog.gz", "wb") as opened:
        text = CHANGES.format(line="CHANGELOG.md in the sources lists the changes.", date=date, **words)
        opened.write(gzip.compress(text.encode("utf-8"), 9, mtime=0))
    for page in os.listdir(f"{installed}/usr/share/man/man1"):
        compress(f"{installed}/usr/share/man/man1/{page}")
    sums, size = sums_of(installed)
    os.makedirs(f"{installed}/DEBIAN")
    write(f"{installed}/DEBIAN/control", CONTROL.format(size=size // 1024 + 1, **words))
    write(f"{installed}/DEBIAN/md5sums", sums)
    os.makedirs(folder, exist_ok=True)
    made = f"{folder}/sigc_{version}_amd64.deb"
    subprocess.run(["dpkg-deb", "--root-owner-group", "--build", installed, made], check=True, capture_output=True)
    return made


def maintainer() -> str:
    """Who makes the package: DEBFULLNAME and DEBEMAIL, as Debian's own tools take them."""
    return f"{os.environ.get('DEBFULLNAME', 'The makers of sigc')} <{os.environ.get('DEBEMAIL', 'sigc@example.org')}>"


def move_completion(installed: str) -> None:
    """Debian has the completions of packages for zsh in a folder of their own."""
    share = f"{installed}/usr/share/zsh"
    os.rename(f"{share}/site-functions", f"{share}/vendor-completions")


def strip(program: str) -> None:
    """Takes the names for debuggers out of the program, if there is a `strip`."""
    if shutil.which("strip"):
        subprocess.run(["strip", "--remove-section=.comment", "--remove-section=.note", program], check=True)


def compress(path: str) -> None:
    with open(path, "rb") as opened:
        text = gzip.compress(opened.read(), 9, mtime=0)
    with open(f"{path}.gz", "wb") as opened:
        opened.write(text)
    os.remove(path)


def sums_of(installed: str) -> tuple[str, int]:
    """The line of md5sums for each file, and the bytes of all files together."""
    lines, size = [], 0
    for at, _, names in sorted(os.walk(installed)):
        for name in sorted(it for it in names if not os.path.islink(f"{at}/{it}")):
            with open(f"{at}/{name}", "rb") as opened:
                text = opened.read()
            size += len(text)
            lines.append(f"{hashlib.md5(text).hexdigest()}  {re.sub('^/', '', os.path.relpath(f'{at}/{name}', installed))}\n")
    return "".join(lines), size


def write(path: str, text: str) -> None:
    with open(path, "w", encoding="utf-8") as opened:
        opened.write(text)
    os.chmod(path, 0o644)

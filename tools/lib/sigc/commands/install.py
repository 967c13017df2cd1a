"""Installs sigc, its scripts, their man pages and completions in a folder, or packs them for Debian.

    tools/sigc-install ~/.local
    tools/sigc-install --deb out

DIR/bin gets sigc and the scripts, DIR/lib/sigc the program and the files that the scripts read, DIR/share the man pages and
completions for bash and zsh. The program is the file that the variable SIGC names, or else the one that ./sigc runs; none
is built. The files of an earlier call are replaced; no others are touched.

With --deb, DIR gets a Debian package sigc_VERSION_amd64.deb. The variables DEBFULLNAME and DEBEMAIL name its maintainer.
"""
import argparse
import os
import shutil
import sys
import tempfile

from sigc.call import command_words, compiler, debian, manual, script_pages
from sigc.places import TOOLS, TOP, version

OF_THE_SOURCES = ("sigc-build", "sigc-dev", "sigc-install", "sigc")
INNER = """#!/bin/sh
# What the scripts take for ./sigc where they are installed.
program=$(dirname "$(readlink -f "$0")")/program
if [ "$*" = --which ]; then echo "$program"; exit; fi
if [ "$*" = --version ]; then
    proved='every crate was proved'
    [ ! -e "$(dirname "$program")/unproved" ] || proved='nothing was proved of this program'
    echo "sigc $(cat "$(dirname "$program")/VERSION"), installed $(date -r "$program" '+%Y-%m-%d %H:%M'), $proved"
    exit
fi
exec "$program" "$@"
"""
DOOR = """#!/bin/sh
# sigc as it is installed: the program, and for who has no command of it yet the way to them.
library=$(cd "$(dirname "$(readlink -f "$0")")/../lib/sigc" && pwd) || exit 70
# At a terminal what is refused is explained; SIGC_PLAIN=1 is the program and nothing else.
explained() {
    [ -t 2 ] && [ "${SIGC_PLAIN:-}" != 1 ] && [ "${1-}" != load ]
}
case "$*" in
--version) "$library/sigc" --version; exit ;;
help | --help | -h)
    [ ! -e "$library/unproved" ] || echo 'sigc: nothing was proved of this program' >&2
    exec python3 "$library/tools/sigc" --help ;;
esac
if explained "$@"; then
    SIGC=$library/program exec python3 "$library/tools/sigc-caret" "$@"
fi
case "${1-}" in
@COMMANDS@) exec "$library/program" "$@" ;;
esac
"$library/program" "$@"
status=$?
echo 'sigc: the commands are told by sigc --help, and by man sigc' >&2
exit $status
"""


def scripts():
    """The scripts of this folder that are of use without the sources."""
    found = [it for it in sorted(os.listdir(TOOLS)) if os.path.isfile(f"{TOOLS}/{it}") and os.access(f"{TOOLS}/{it}", os.X_OK)]
    return [it for it in found if it not in OF_THE_SOURCES]


def written(path, text, is_program=False):
    os.makedirs(os.path.dirname(path), exist_ok=True)
    with open(path, "w", encoding="utf-8") as it:
        it.write(text)
    os.chmod(path, 0o755 if is_program else 0o644)


def copied(folder):
    """Copies scripts, modules, editors and documents below lib/sigc."""
    library = f"{folder}/lib/sigc"
    if os.path.isdir(library):
        shutil.rmtree(library)
    ignored = shutil.ignore_patterns("tests", "__pycache__")
    shutil.copytree(TOOLS, f"{library}/tools", ignore=ignored)
    shutil.copytree(f"{TOP}/docs", f"{library}/docs", ignore=ignored)
    shutil.copyfile(f"{TOP}/VERSION", f"{library}/VERSION")
    written(f"{library}/sigc", INNER, is_program=True)


def linked(folder):
    """A link in bin for each script."""
    for it in scripts():
        link = f"{folder}/bin/{it}"
        if os.path.lexists(link):
            os.remove(link)
        os.symlink(f"../lib/sigc/tools/{it}", link)


def put_program(folder, program, is_unproved):
    """The program below lib/sigc, with a file beside it that says so where nothing was proved of it, and in bin the door to it."""
    made = f"{folder}/lib/sigc/program"
    shutil.copyfile(program, f"{made}.new")
    os.chmod(f"{made}.new", 0o755)
    os.replace(f"{made}.new", made)
    if is_unproved:
        written(f"{folder}/lib/sigc/unproved", "nothing was proved of this program\n")
    if os.path.lexists(f"{folder}/bin/sigc"):
        os.remove(f"{folder}/bin/sigc")
    written(f"{folder}/bin/sigc", DOOR.replace("@COMMANDS@", " | ".join(command_words.COMMANDS)), is_program=True)


def put_completions(folder):
    """One file for each shell; bash looks for one of each command's name."""
    flags = manual.flags_of(TOOLS, scripts())
    bash = f"{folder}/share/bash-completion/completions"
    written(f"{bash}/sigc", manual.bash_completion(flags))
    written(f"{folder}/share/zsh/site-functions/_sigc", manual.zsh_completion(flags))
    for it in scripts():
        if os.path.lexists(f"{bash}/{it}"):
            os.remove(f"{bash}/{it}")
        os.symlink("sigc", f"{bash}/{it}")


def put_pages(folder: str) -> None:
    """The man page of sigc, made of the documents, and one of each script, made of its --help."""
    pages = f"{folder}/share/man/man1"
    with open(f"{TOP}/docs/formats.md", encoding="utf-8") as opened:
        written(f"{pages}/sigc.1", manual.man_page(opened.read(), version()))
    for name, text in manual.helps(TOOLS, scripts()).items():
        written(f"{pages}/{name}.1", script_pages.page_of(name, text, version()))


def install(folder: str, program: str) -> bool:
    """Installs everything below a folder; returns whether the program is an unproved one."""
    is_unproved = os.path.basename(program) == "unproved"
    with tempfile.TemporaryDirectory(prefix="sigc-install-") as room:
        kept = shutil.copy(program, f"{room}/program")
        copied(folder)
        put_program(folder, kept, is_unproved)
    linked(folder)
    put_completions(folder)
    put_pages(folder)
    return is_unproved


def package(folder: str, program: str) -> int:
    """Makes the Debian package."""
    with tempfile.TemporaryDirectory(prefix="sigc-deb-") as room:
        os.chmod(room, 0o755)
        is_unproved = install(f"{room}/usr", program)
        print(debian.packed(room, folder, version(), is_unproved))
    if is_unproved:
        print("nothing was proved of this program; the package says so")
    return 0


def main() -> int:
    words = argparse.ArgumentParser(prog="sigc-install", description=__doc__, formatter_class=argparse.RawDescriptionHelpFormatter)
    words.add_argument("folder", metavar="DIR", help="the folder, as ~/.local")
    words.add_argument("--deb", action="store_true", help="write a Debian package into DIR instead")
    given = words.parse_args()
    folder, program = os.path.abspath(given.folder), os.path.realpath(compiler.program())
    if not os.path.isfile(program):
        raise compiler.NoProgram(f"{program} is no file")
    if os.path.commonpath([folder, TOOLS]) == TOOLS:
        raise compiler.NoProgram(f"{folder} is inside {TOOLS}")
    if given.deb:
        return package(folder, program)
    is_unproved = install(folder, program)
    print(f"installed in {folder}: bin/sigc and {len(scripts())} scripts, man pages in share/man/man1, completions for bash and zsh")
    if is_unproved:
        print("nothing was proved of this program; sigc --help says so too")
    if f"{folder}/bin" not in os.environ.get("PATH", "").split(":"):
        print(f"{folder}/bin is not on the PATH: export PATH={folder}/bin:$PATH")
    return 0


def start():
    sys.exit(compiler.guarded(main))

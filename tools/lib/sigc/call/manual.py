"""The man page of sigc, made of the documents, and the completions of its words for bash and zsh."""
import re
import subprocess
import sys
from concurrent.futures import ThreadPoolExecutor

from sigc.call.command_words import COMMANDS, OPTIONS, PACED, STATUSES, usage

CELL = re.compile(r"(?<!\\)\|")


def escaped(text):
    """A text for troff: backslashes, and a dot or a quote at the beginning of a line."""
    text = text.replace("\\|", "|").replace("\\", "\\e").replace("-", "\\-")
    return re.sub(r"^([.'])", r"\\&\1", text, flags=re.M)


def inline(text):
    """A line of Markdown as troff: code in bold, emphasis in italics, links as their words."""
    text = re.sub(r"\[([^\]]*)\]\([^)\s]*\)", r"\1", text)
    text = escaped(text)
    text = re.sub(r"`([^`]+)`", r"\\fB\1\\fR", text)
    text = re.sub(r"\*\*([^*]+)\*\*", r"\\fB\1\\fR", text)
    return re.sub(r"(?<![\w*])\*([^*\s][^*]*)\*(?!\w)", r"\\fI\1\\fR", text)


def table_row(line):
    cells = [inline(it.strip()) for it in CELL.split(line.strip().strip("|"))]
    return f".TP\n{cells[0] or '(none)'}\n{'; '.join(it for it in cells[1:] if it)}\n"


def troff(page):
    """A page of Markdown as the body of a man page."""
    found, lines, at = [], page.split("\n"), 0
    while at < len(lines):
        line, following = lines[at], lines[at + 1] if at + 1 < len(lines) else ""
        if line.startswith("```") or line.startswith("    "):
            at = code(lines, at, found)
            continue
        if line.startswith("#"):
            title = inline(line.lstrip("#").strip())
            found.append(f".SH {title.upper()}\n" if line.startswith("## ") else f".SS {title}\n" if line.startswith("###") else "")
        elif line.startswith("|"):
            if not re.match(r"\|\s*-", line) and not re.match(r"\|\s*-", following):
                found.append(table_row(line))
        elif line.startswith("- "):
            found.append(f".IP \\(bu 2\n{inline(line[2:])}\n")
        else:
            found.append(f"{inline(line)}\n" if line.strip() else ".PP\n")
        at += 1
    return re.sub(r"(\.PP\n)+(?=\.S|\.PP|\Z)", "", "".join(found))


def code(lines, at, found):
    """Takes a fence or an indented block, and says where it ends."""
    is_fence = lines[at].startswith("```")
    found.append(".PP\n.nf\n.RS 4\n")
    at += is_fence
    while at < len(lines) and (lines[at] != "```" if is_fence else lines[at].startswith("    ")):
        found.append(escaped(lines[at] if is_fence else lines[at][4:]) + "\n")
        at += 1
    found.append(".RE\n.fi\n")
    return at + is_fence


def man_page(formats: str, version: str) -> str:
    """The man page sigc(1), of the page docs/formats.md."""
    head = f'.TH SIGC 1 "" "sigc {version}"\n.SH NAME\nsigc \\- compiles, judges and runs programs in SIGNAL\n.SH SYNOPSIS\n.nf\n'
    head += "".join(escaped(usage(it)) + "\n" for it in COMMANDS) + ".fi\n.SH COMMANDS\n"
    head += "".join(f".TP\n\\fB{it}\\fR\n{escaped(command.does)}\n" for it, command in COMMANDS.items())
    head += ".SH STATUS\n" + escaped(STATUSES) + "\n"
    see = ".SH SEE ALSO\n\\fBsigc\\-caret\\fR(1), \\fBsigc\\-why\\fR(1), \\fBsigc\\-run\\fR(1), \\fBsigc\\-c\\fR(1)\n.PP\n"
    see += escaped("The documents are in lib/sigc/docs.\n")
    return head + ".SH DESCRIPTION\n" + troff(formats.partition("\n")[2].lstrip("\n")) + see


def flags_of(folder, scripts):
    """The flags of each script of a folder, and of its commands, by what it says of its words: {(script, command): flags}."""
    with ThreadPoolExecutor() as pool:
        said = dict(zip(scripts, pool.map(told, ([f"{folder}/{it}"] for it in scripts))))
        commands = [(it, command) for it, text in said.items() for command in commands_of(text)]
        of_commands = pool.map(told, ([f"{folder}/{script}", command] for script, command in commands))
        found = {**{(it, ""): text for it, text in said.items()}, **dict(zip(commands, of_commands))}
    flags = {it: sorted(set(re.findall(r"(?<![\w-])--?[a-z][a-z-]*", text)) - {"-h"} | {"--help"}) for it, text in found.items()}
    return {**flags, ("sigc-caret", ""): ["--explain", "--help", "--lint"]}


def commands_of(usage_text):
    """The commands of a script that has some."""
    found = re.search(r"\{([a-z,]+)\} \.\.\.", usage_text)
    return found[1].split(",") if found else []


def helps(folder: str, scripts: list[str]) -> dict[str, str]:
    """What each script of a folder prints with --help."""
    with ThreadPoolExecutor() as pool:
        return dict(zip(scripts, pool.map(help_of, ([f"{folder}/{name}"] for name in scripts))))


def help_of(words: list[str]) -> str:
    """What a script, or a command of it, prints with --help."""
    return subprocess.run([sys.executable, *words, "--help"], capture_output=True, text=True, stdin=subprocess.DEVNULL).stdout


def told(words):
    """The usage that a script prints with --help."""
    return help_of(words).partition("\n\n")[0]


def all_flags(flags):
    """The flags by the words behind which they may stand: of sigc and sigc-caret by their command, of the scripts."""
    found = {("sigc", it): [*command.options, *(["--pace"] if it in PACED else [])] for it, command in COMMANDS.items()}
    found["sigc", ""] = ["--help"]
    of_caret = flags.get(("sigc-caret", ""), [])
    found.update({("sigc-caret", it): found["sigc", it] + of_caret for it in COMMANDS})
    return {**found, **flags}


BASH = """# Completion of sigc and its scripts for bash.
_sigc() {
    local word=${COMP_WORDS[COMP_CWORD]} script=${COMP_WORDS[0]##*/} command=${COMP_WORDS[1]} words=
    case $script in
    sigc | sigc-caret) [ "$COMP_CWORD" -eq 1 ] && words='@COMMANDS@' ;;
    sigc-table) [ "$COMP_CWORD" -eq 1 ] && words='@TABLES@' ;;
    esac
    case $word in
    -*)
        case "$script $command" in
@CASES@
        esac
        ;;
    esac
    if [ -n "$words" ]; then
        COMPREPLY=($(compgen -W "$words" -- "$word"))
    else
        COMPREPLY=($(compgen -f -- "$word"))
    fi
}
complete -o filenames -F _sigc @SCRIPTS@
"""

ZSH = """#compdef @SCRIPTS@
# Completion of sigc and its scripts for zsh.
local -a commands
commands=(
@DESCRIBED@
)
if (( CURRENT == 2 )) && [[ $service == sigc || $service == sigc-caret ]] && [[ $words[2] != -* ]]; then
    _describe command commands
    return
fi
case "$service $words[2]" in
@CASES@
esac
"""
ENDINGS = {"PROGRAM": "*.sig", "FLOWS": "*.flows", "EVENTS": "*.events", "TRACE": "*.trace"}


def ordered(flags):
    """The cases of a completion: those with a command before those without."""
    return sorted(all_flags(flags).items(), key=lambda it: (not it[0][1], it[0]))


def pattern(script, command):
    return f"'{script} {command}'" if command else f"'{script} '*"


def bash_completion(flags):
    cases = "\n".join(f"        {pattern(*it)}) words='{' '.join(given)}' ;;" for it, given in ordered(flags))
    tables = " ".join(command for script, command in flags if script == "sigc-table" and command)
    text = BASH.replace("@COMMANDS@", " ".join(COMMANDS)).replace("@TABLES@", tables).replace("@CASES@", cases)
    return text.replace("@SCRIPTS@", " ".join(named(flags)))


def named(flags):
    """sigc and the scripts, by name."""
    return ["sigc", *sorted({script for script, _ in flags} - {"sigc"})]


def zsh_completion(flags):
    described = "\n".join(f"    {quoted(f'{it}:{command.does}')}" for it, command in COMMANDS.items())
    cases = "\n".join(f"{pattern(*it)}) _arguments {' '.join(zsh_words(*it, given))} ;;" for it, given in ordered(flags))
    return ZSH.replace("@DESCRIBED@", described).replace("@CASES@", cases).replace("@SCRIPTS@", " ".join(named(flags)))


def quoted(text):
    """A text as one word of a shell."""
    return "'" + text.replace("'", "'\\''") + "'"


def zsh_words(script, command, flags):
    """The words of _arguments: the flags, and each file, of a command of sigc by its ending."""
    found = [quoted(f"{it}[{OPTIONS[it].does}]:number:" if it in OPTIONS and script in ("sigc", "sigc-caret") else it) for it in flags]
    if command not in COMMANDS or script not in ("sigc", "sigc-caret"):
        return [*found, quoted("*:file:_files")]
    files = [(it, f'_files -g "{ENDINGS[it]}"' if it in ENDINGS else "") for it in COMMANDS[command].files]
    return found + [quoted(f"{at}:{it.lower()}:{call}") for at, (it, call) in enumerate(files, 2)]

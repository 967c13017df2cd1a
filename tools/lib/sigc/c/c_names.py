"""Names of a program as names of C: those of the program where C lets them, and no two alike."""
import re
import zlib

KEYWORDS = set(
    "auto break case char const continue default do double else enum extern float for goto if inline int long register restrict "
    "return short signed sizeof static struct switch typedef union unsigned void volatile while asm typeof fortran near far "
    "alignas alignof bool complex imaginary noreturn generic thread_local static_assert nullptr true false constexpr main "
    # what C++ has more, since a header may be read by it
    "and and_eq bitand bitor catch class compl concept const_cast consteval constinit delete dynamic_cast explicit export friend "
    "mutable namespace new noexcept not not_eq operator or or_eq private protected public reinterpret_cast requires static_cast "
    "template this throw try typeid typename using virtual wchar_t xor xor_eq decltype char8_t char16_t char32_t co_await "
    "co_return co_yield import module final override "
    # what compilers define, and names that the text of a step has
    "linux unix i386 arm mips vax sun hpux NULL EOF errno assert signals slots emit "
    "state context value result add subtract multiply negate divide modulo".split()
)
# Of a process; P_DIVISION_BY_ZERO then has 57 characters.
LONGEST_PREFIX = 40
# A file system takes names of 255 bytes, some less.
LONGEST_STEM = 100
# How many characters of a name count, for a compiler that takes no more than C11 promises.
MOST_LETTERS = 63
# Beginnings of functions that C11 keeps for its library, now or later.
OF_LIBRARY = re.compile(r"(?:str|mem|wcs|is|to)[a-z]|(?:atomic|cnd|mtx|thrd|tss)\Z")
# What stdint.h has, or may have.
OF_STDINT = re.compile(r"[A-Za-z0-9_]*_t|[A-Z0-9_]*_(MIN|MAX|WIDTH|C)")
# Headers that one of these names would shadow, and the file of the program that runs it.
HEADERS = set(
    "assert complex ctype errno fenv float inttypes iso646 limits locale math setjmp signal stdalign stdarg stdatomic stdbool "
    "stddef stdint stdio stdlib stdnoreturn string strings tgmath threads time uchar wchar wctype main unistd fcntl memory "
    "malloc alloca aio cpio dirent dlfcn fmtmsg fnmatch ftw glob grp iconv langinfo libgen monetary mqueue ndbm netdb nl_types "
    "poll pthread pwd regex sched search semaphore spawn stropts syslog tar termios trace ulimit utime utmpx wordexp features "
    "windows direct io conio dos process endian byteswap elf link error values version new algorithm array atomic bitset "
    "chrono deque exception fstream functional future iomanip ios iostream istream iterator list map mutex numeric optional "
    "ostream queue random ratio set span stack stdexcept streambuf thread tuple typeinfo utility valarray variant vector any "
    "charconv codecvt compare concepts coroutine execution filesystem format numbers ranges barrier latch".split()
)


def is_taken(name, prefix):
    """Whether C, its headers or the text around a step may mean something else by a name."""
    return name in KEYWORDS or bool(OF_STDINT.fullmatch(name)) or is_of_program(name, prefix)


def is_of_program(name, prefix):
    """Whether a name begins as those of the program's functions and types do."""
    return name.startswith((f"{prefix}_", f"r_{prefix}_", f"w_{prefix}_", "_"))


def prefix_for(name: str) -> str:
    """What the names of C begin with for a process of this name: C tells names apart by 63 characters, so a long name is cut, and a number tells cut ones apart."""
    if len(name) > LONGEST_PREFIX:
        return f"{name[: LONGEST_PREFIX - 9]}_{zlib.crc32(name.encode()):08x}"
    return f"own_{name}" if is_of_library(name) else name


def is_of_library(prefix: str) -> bool:
    """Whether C11 keeps names of functions that begin so for its library."""
    return bool(OF_LIBRARY.match(prefix))


class Names:
    """Names of C for what has other names: no two alike as far as C11 promises to look at them."""

    def __init__(self, prefix):
        self.prefix, self.taken = prefix, set()

    def fresh(self, wanted):
        """A name as near as may be to the one that is wanted, which nothing else has."""
        name, own, tries = re.sub(r"[^A-Za-z0-9_]", "_", wanted)[:MOST_LETTERS], "its" if self.prefix.startswith("own") else "own", 0
        while is_taken(name, self.prefix) or name in self.taken:
            tries += 1
            behind = "_" if len(name) < MOST_LETTERS else f"_{tries}"
            name = f"{own}_{name}"[:MOST_LETTERS] if is_of_program(name, self.prefix) else f"{name[:MOST_LETTERS - len(behind)]}{behind}"
        self.taken.add(name)
        return name


def stem(prefix):
    """The name of the files: another one where it would shadow a header, is the program that runs it, or is too long for a file."""
    if len(prefix) > LONGEST_STEM:
        return f"{prefix[: LONGEST_STEM - 9]}_{zlib.crc32(prefix.encode()):08x}"
    return f"{prefix}_process" if prefix.lower() in HEADERS else prefix

"""Small programs in SIGNAL as designers write it, for the tests of scripts that take them."""

# Four lamps in a row: each lights up one instant after the one before it; the third adds until it leaves 64 bits.
LAMPS = """constant integer N = 3;
type LAMP = enum (off, lit);
use ADDS;
process ROW = (? boolean PRESS; [N] integer A ! [N] LAMP L; integer TOTAL)
(| PRESS ^= A ^= L
 | array I to N - 1 of
     (| L[I] := if GO[?] then #lit else #off
      | GO[I] := GO[?] $ 1 init false
      |)
   with GO := PRESS end
 | TOTAL := SUMS(A[2])
 |)
where [N] boolean GO;
end;
"""
ADDS = """module ADDS =
  process SUMS = (? integer X ! integer S)
    (| S := X + ZS
     | ZS := S $ 1 init 0
     |)
    where integer ZS; end;
end;
"""
FLOWS = """PRESS true false false
A [1,2,3] [4,5,6] [7,8,9]
"""
LARGE = 2**63 - 1
OVERFLOW = f"PRESS true false\nA [1,2,{LARGE}] [4,5,6]\n"


def written_in(room):
    """The path of the program, with its module and its flows beside it."""
    for name, text in (("row.sig", LAMPS), ("ADDS.sig", ADDS), ("row.flows", FLOWS), ("over.flows", OVERFLOW)):
        with open(f"{room}/{name}", "w", encoding="latin-1") as it:
            it.write(text)
    return f"{room}/row.sig"

% A running sum whose branches go on with the element before this one; an event that comes whenever it may. %
type T = enum (a, b);
process P = (? T S; integer A; [3] integer R ! [3] integer X; event E; [3] integer Z)
(| S ^= A ^= R ^= E
 | array I to 2 of
     case S in {#a}: (| X := X[?] + R[I] | Z := X |) {#b}: (| X := X[?] - 1 | Z := R[2 - I] |) end
   with X := A end
 | E := true
 |);

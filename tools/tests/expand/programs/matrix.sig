% Arrays of two sizes, and a module in the text that uses it. %
module M = constant integer N = 3; process F = (? integer X ! integer Y) Y := X * N; end;
use M;
process P = (? [2, 2] integer A; integer B ! integer Y; [2] integer Z; [2, 2] integer W)
(| A ^= B | Y := F(A[1, 0]) + A[0][1] + max(A[1]) | Z := A[0] when B > 0 | W := A + B |);

type LEVEL = enum (none, advisory, caution, warning);
constant integer N = 3;
constant [N] integer CONFIRM = [2, 3, 1];
constant [N] LEVEL SEVERITY = [#warning, #caution, #advisory];
process FLIGHT = (? [N] boolean RAW; boolean ACK ! [N] boolean ON; LEVEL MOST; boolean HORN)
(| RAW ^= ACK
 | array I to N - 1 of
     (| ON[I] := CONFIRMED{CONFIRM[I]}(RAW[I])
      | L[I] := if ON[I] and RANK{}(SEVERITY[I]) > RANK(L[?]) then SEVERITY[I] else L[?]
      |)
   with L := #none when ^ACK end
 | MOST := L[N - 1]
 | RISE := MOST = #warning and not ((MOST = #warning) $ 1 init false)
 | HORN := if ACK then false else if RISE then true else HORN $ 1 init false
 |)
where
  [N] LEVEL L; boolean RISE;
  process RANK = (? LEVEL X ! integer R)
    case X in {#none}: R := 0 {#advisory}: R := 1 {#caution}: R := 2 {#warning}: R := 3 end;
  process CONFIRMED = { integer K; } (? boolean B ! boolean Y)
    (| C := if B then min(K, ZC + 1) else 0 | ZC := C $ 1 init 0 | Y := C >= K |) where integer C, ZC; end;
end;

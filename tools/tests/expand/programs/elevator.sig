constant integer FLOORS = 5;
type MOVE = enum (stand, up, down);
process ELEVATOR = (? [FLOORS] boolean CALL ! integer FLOOR; MOVE M; boolean OPEN; [FLOORS] boolean LIT)
(| CALL ^= FLOOR ^= LIT
 | ZLIT := LIT $ 1 init false | ZM := M $ 1 init #stand | ZFLOOR := FLOOR $ 1 init 0
 | FLOOR := case_floor
 | case_floor := if ZM = #up then ZFLOOR + 1 else if ZM = #down then ZFLOOR - 1 else ZFLOOR
 | array I to FLOORS - 1 of
     (| WANT[I] := CALL[I] or ZLIT[I]
      | LIT[I] := WANT[I] and FLOOR /= I
      | ABOVE[I] := ABOVE[?] or (WANT[I] and I > FLOOR)
      | BELOW[I] := BELOW[?] or (WANT[I] and I < FLOOR) |)
   with (| ABOVE := false | BELOW := false |) end
 | OPEN := WANT[FLOOR]
 | case ZM in
     {#up, #stand}: M := if OPEN then #stand else if ABOVE[FLOORS - 1] then #up else if BELOW[FLOORS - 1] then #down else #stand
     {#down}: M := if OPEN then #stand else if BELOW[FLOORS - 1] then #down else if ABOVE[FLOORS - 1] then #up else #stand
   end
 |)
where [FLOORS] boolean ZLIT, WANT, ABOVE, BELOW; MOVE ZM; integer ZFLOOR, case_floor; end;

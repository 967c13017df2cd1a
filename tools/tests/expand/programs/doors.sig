% One automaton for each door of a row: a door opens when it is called and the door before it is shut. %
constant integer N = 3;
type DOOR = enum (shut, open);
process DOORS = (? [N] boolean CALL ! [N] DOOR D; [N] integer TIMES)
(| CALL ^= D
 | array I to N - 1 of
     (| automaton D
          state shut do (| |)
            until CALL[I] and BEFORE[?] go open
          state open do (| |)
            until not CALL[I] go shut
        end
      | BEFORE := D = #shut
      | TIMES := (ZTIMES[I] + 1 when D = #open and ZD[I] = #shut) default ZTIMES[I]
      | TIMES ^= D
      |)
   with BEFORE := true end
 | ZD := D $ 1 init #shut
 | ZTIMES := TIMES $ 1 init 0
 |)
where [N] boolean BEFORE; [N] DOOR ZD; [N] integer ZTIMES; end;

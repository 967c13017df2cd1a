process TIMER = (? boolean RESET ! boolean LATE)
(| N := (0 when RESET) default (3 when FULL) default (ZN + 1)
 | ZN := N $ init 0
 | FULL := ZN >= 3
 | N ^= RESET
 | LATE := N >= 3
 |)
where integer N, ZN; boolean FULL; end;

process TIMER = (? boolean RESET ! event ALARM)
(| N := (0 when RESET) default (3 when FULL) default (ZN + 1)
 | ZN := N $ init 0
 | FULL := ZN >= 3
 | N ^= RESET
 | LATE := N >= 3
 | ALARM := when (LATE and not FULL)
 |)
where integer N, ZN; boolean FULL, LATE; end;

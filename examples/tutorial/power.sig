process POWER = (? integer SHOWN, OUTSIDE ! integer POWER)
(| COLD := SHOWN < 18
 | MISSING := (18 - SHOWN) when COLD
 | LOST := (SHOWN - OUTSIDE) when COLD
 | POWER := MISSING + LOST
 | SHOWN ^= OUTSIDE
 |)
where boolean COLD; integer MISSING, LOST; end;

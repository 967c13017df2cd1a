process POWER = (? integer SHOWN, OUTSIDE ! integer POWER)
(| MISSING := (18 - SHOWN) when (SHOWN < 18)
 | LOST := (SHOWN - OUTSIDE) when (SHOWN < 18)
 | POWER := MISSING + LOST
 | SHOWN ^= OUTSIDE
 |)
where integer MISSING, LOST; end;

% The mean of a level and the one before it. %
process FILTER = (? integer LEVEL ! integer CLEAN)
(| CLEAN := (LEVEL + LAST) / 2
 | LAST := LEVEL $ init 0
 |)
where integer LAST; end;

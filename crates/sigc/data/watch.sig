process WATCH = (? event TICK; boolean REQ; integer V ! integer HELD; boolean ALARM)
pragmas RunOn {AGE, ALARM} "1" end pragmas
(| REQ ^= TICK
 | V ^= when REQ
 | HELD := V cell TICK init 0
 | AGE := COUNT{3}(REQ)
 | LATE := AGE >= 3
 | WAS := LATE $ init false
 | ALARM := LATE and not WAS
 |)
where integer AGE; boolean LATE, WAS;
  process COUNT = {integer MAX} (? boolean R ! integer N)
  (| N := (0 when R) default (MAX when (ZN >= MAX)) default (ZN + 1)
   | ZN := N $
   | N ^= R
   |)
  where integer ZN init 0; end;
end;

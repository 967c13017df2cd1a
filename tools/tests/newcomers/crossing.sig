% A pedestrian light: cars have green until somebody presses; then after 5 s yellow for 2 s, walkers green for 6 s, red 2 s. %
process PED = (? event SECOND, BUTTON ! integer CARS; boolean WALK)
(| ASKED := (true when BUTTON) default (false when WALK) default ZASKED
 | ZASKED := ASKED $ init false
 | STATE := (1 when ZSTATE = 0 and ASKED and TIME >= 5)
   default (2 when ZSTATE = 1 and TIME >= 2)
   default (3 when ZSTATE = 2 and TIME >= 6)
   default (0 when ZSTATE = 3 and TIME >= 2)
   default ZSTATE
 | ZSTATE := STATE $ init 0
 | TIME := (0 when STATE /= ZSTATE) default (ZTIME + 1)
 | ZTIME := TIME $ init 0
 | WALK := STATE = 2
 | CARS := (2 when STATE = 0) default (1 when STATE = 1) default 0
 |)
where integer STATE, ZSTATE, TIME, ZTIME; boolean ASKED, ZASKED; end;

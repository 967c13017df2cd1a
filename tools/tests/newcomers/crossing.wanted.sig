% The same light with what was meant: a press and the time count from the next second on. %
process CROSSING = (? event SECOND; boolean BUTTON ! integer CARS; boolean WALK)
(| SECOND ^= BUTTON ^= ZSTATE
 | ZSTATE := STATE $ init 0
 | WAITED := TIME $ init 0
 | PENDING := ASKED $ init false
 | GO := ZSTATE = 0 and PENDING and WAITED >= 5
 | STOP := (ZSTATE = 1 and WAITED >= 2) or (ZSTATE = 3 and WAITED >= 2) or (ZSTATE = 2 and WAITED >= 6)
 | NEXT := (0 when ZSTATE = 3) default (ZSTATE + 1)
 | STATE := (NEXT when (GO or STOP)) default ZSTATE
 | TIME := (0 when (GO or STOP)) default (WAITED + 1)
 | WALK := STATE = 2
 | ASKED := BUTTON or (PENDING and not WALK)
 | CARS := (2 when STATE = 0) default (1 when STATE = 1) default (0 when ^STATE)
 |)
where integer STATE, ZSTATE, NEXT, TIME, WAITED; boolean ASKED, PENDING, GO, STOP; end;

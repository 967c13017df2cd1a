process BOILER = (? boolean MEASURE; integer T ! boolean ON; integer SHOWN; event ALARM)
(| T ^= when MEASURE
 | SHOWN := T cell ^MEASURE init 20
 | COLD := SHOWN < 18
 | WAITS := (0 when not COLD) default (3 when FULL) default (ZWAITS + 1)
 | ZWAITS := WAITS $ init 0
 | FULL := ZWAITS >= 3
 | WAITS ^= COLD
 | (STATE, ON, ALARM) := MODES(COLD, FULL)
 |)
where boolean COLD, FULL; integer STATE, WAITS, ZWAITS; end;

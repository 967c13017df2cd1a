process BOILER = (? boolean MEASURE; integer T ! boolean ON; integer SHOWN; event ALARM)
(| T ^= when MEASURE
 | SHOWN := T cell ^MEASURE init 20
 | COLD := SHOWN < 18
 | WAITS := (0 when not COLD) default (3 when FULL) default (ZWAITS + 1)
 | ZWAITS := WAITS $ init 0
 | FULL := ZWAITS >= 3
 | WAITS ^= COLD
 | (STATE, ON, ALARM) := MODES(COLD, FULL)
 |)
where boolean COLD, FULL; integer STATE, WAITS, ZWAITS; end;
% The states: 0 REST, 1 HEAT, 2 BROKEN. %
process MODES = (? boolean COLD, STUCK ! integer STATE; boolean ON; event ALARM)
(| % the state %
   STATE := NEXT $ init 0
 | NEXT := (1 when FROM_REST_1) default (2 when FROM_HEAT_1) default (0 when FROM_HEAT_2) default STATE
 | STATE ^= COLD ^= STUCK
   % which state it is %
 | IN_REST := STATE = 0
 | IN_HEAT := STATE = 1
 | IN_BROKEN := STATE = 2
   % the transitions %
 | FROM_REST_1 := IN_REST and COLD
 | FROM_HEAT_1 := IN_HEAT and STUCK
 | FROM_HEAT_2 := IN_HEAT and not FROM_HEAT_1 and not COLD
   % the outputs %
 | ON := IN_HEAT
 | ALARM := when FROM_HEAT_1
 |)
where
  integer NEXT;
  boolean IN_REST, IN_HEAT, IN_BROKEN, FROM_REST_1, FROM_HEAT_1, FROM_HEAT_2;
end;

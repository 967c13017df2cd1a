% A tank with a heater, of four readings at each instant and ten outputs. It runs from START on until STOP. While it runs it heats
  from below 18 on until the temperature is above 21, and fills from below 20 on until the level is above 80. It drains above 95.
  ALARM tells that a limit was passed at three instants in a row, and FAULT the temperature of the last such instant. STARTS counts
  the starts, and comes at those alone; AGE counts the instants since the last one. LOWEST and HIGHEST are the extreme levels. %
process TANK =
  (? integer TEMPERATURE, LEVEL; boolean START, STOP
   ! boolean RUNNING, HEATING, FILLING, DRAINING, ALARM; integer FAULT, STARTS, AGE, LOWEST, HIGHEST)
(| TEMPERATURE ^= LEVEL ^= START ^= STOP
 | RUNNING := (WAS or START) and not STOP
 | WAS := RUNNING $ init false
 | COLD := HYSTERESIS{18, 21}(TEMPERATURE)
 | HEATING := COLD and RUNNING
 | SHORT := HYSTERESIS{20, 80}(LEVEL)
 | FILLING := SHORT and RUNNING
 | DRAINING := LEVEL > 95
 | PASSED := TEMPERATURE > 30 or DRAINING
 | COUNTED := (0 when not PASSED) default (3 when (ZCOUNTED >= 3)) default (ZCOUNTED + 1)
 | ZCOUNTED := COUNTED $ init 0
 | COUNTED ^= PASSED
 | ALARM := COUNTED >= 3
 | FAULT := (TEMPERATURE when ALARM) default ZFAULT
 | ZFAULT := FAULT $ init 0
 | FAULT ^= ALARM
 | STARTS := (STARTS $ init 0) + 1
 | STARTS ^= when (RUNNING and not WAS)
 | AGE := (0 when (RUNNING and not WAS)) default (ZAGE + 1)
 | ZAGE := AGE $ init 0
 | AGE ^= RUNNING
 | LOWEST := (LEVEL when (LEVEL < ZLOWEST)) default ZLOWEST
 | ZLOWEST := LOWEST $ init 100
 | LOWEST ^= LEVEL
 | HIGHEST := (LEVEL when (LEVEL > ZHIGHEST)) default ZHIGHEST
 | ZHIGHEST := HIGHEST $ init 0
 | HIGHEST ^= LEVEL
 |)
where
  boolean WAS, COLD, SHORT, PASSED;
  integer COUNTED, ZCOUNTED, ZFAULT, ZAGE, ZLOWEST, ZHIGHEST;
  process HYSTERESIS = {integer LOW, HIGH} (? integer X ! boolean ON)
  (| ON := (true when (X < LOW)) default (false when (X > HIGH)) default OLD
   | OLD := ON $ init false
   | ON ^= X
   |)
  where boolean OLD; end;
end;

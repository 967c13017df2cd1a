process HEATER = (? boolean MEASURE; integer T ! boolean ON; integer SHOWN; event ALARM)
pragmas RunOn {ALARM} "1" end pragmas
(| T ^= when MEASURE
 | SHOWN := T cell ^MEASURE init 20
 | ON := HYSTERESIS{18, 21}(SHOWN)
 | ALARM := TIMER{3}(not ON)
 |)
where
  process HYSTERESIS = {integer LOW, HIGH} (? integer X ! boolean ON)
  (| ON := (true when (X < LOW)) default (false when (X > HIGH)) default WAS
   | WAS := ON $ init false
   | ON ^= X
   |)
  where boolean WAS; end;
  process TIMER = {integer MAX} (? boolean RESET ! event ALARM)
  (| N := (0 when RESET) default (MAX when FULL) default (ZN + 1)
   | ZN := N $ init 0
   | FULL := ZN >= MAX
   | N ^= RESET
   | LATE := N >= MAX
   | ALARM := when (LATE and not FULL)
   |)
  where integer N, ZN; boolean FULL, LATE; end;
end;

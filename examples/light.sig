% A traffic light with a button. The phase counts the seconds of a turn: green up to 3, amber up to 5, red up to 9. Green goes on
  until the button is pushed. The lamps are driven by a cluster of their own. %
process LIGHT = (? boolean BUTTON ! boolean GREEN, AMBER, RED)
pragmas RunOn {GREEN, AMBER, RED} "1" end pragmas
(| ZPHASE := PHASE $ init 0
 | STAYS := ZPHASE = 3 and not BUTTON
 | PHASE := (3 when STAYS) default ((ZPHASE + 1) modulo 10)
 | PHASE ^= BUTTON
 | GREEN := PHASE <= 3
 | AMBER := PHASE > 3 and PHASE <= 5
 | RED := PHASE > 5
 |)
where integer PHASE, ZPHASE; boolean STAYS; end;

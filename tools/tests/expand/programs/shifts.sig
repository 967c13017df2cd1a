% A shift begins by START and ends by END; both and the ticks of a clock come by themselves. How long did it take? %
use CLOCKS;
process SHIFTS = (? event TICK, START, END ! integer AT, LENGTH; boolean LONG)
  pragmas Comes {TICK, START, END} end pragmas
(| AT := TICK count HOUR
 | ANY ^= TICK ^+ START ^+ END
 | ANY := if RUNNING then 1 else 0
 | RUNNING := (true when START) default (false when END) default WAS
 | WAS := RUNNING $ 1 init false
 | SO_FAR := (TICK after START) cell ^ANY init 0
 | LENGTH := SO_FAR when RISES(not RUNNING and ANY = 0)
 | LONG := LENGTH > MINUTE
 |)
where integer ANY, SO_FAR; boolean RUNNING, WAS; end;

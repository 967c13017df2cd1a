% The same machine with what was meant: a boolean says whether a coin comes, and buttons answer each time. %
process DRINKS = (? boolean COIN_COMES; integer COIN; boolean DRINK, CANCEL ! event GIVE; integer BACK; integer SHOWN)
(| COIN_COMES ^= DRINK ^= CANCEL ^= HELD
 | COIN ^= when COIN_COMES
 | HELD := SHOWN $ init 0
 | PAID := COIN default (0 when ^HELD)
 | RICH := HELD >= 50
 | SHOWN := ((HELD + PAID) when COIN_COMES) default ((HELD - 50) when (DRINK and RICH)) default (0 when CANCEL) default HELD
 | GIVE := when (DRINK and RICH)
 | BACK := HELD when CANCEL
 |)
where integer HELD, PAID; boolean RICH; end;

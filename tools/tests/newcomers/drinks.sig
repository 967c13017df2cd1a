% A vending machine: coins, one drink for 50, cancel gives the money back. %
process VEND = (? integer COIN; boolean DRINK, CANCEL ! event GIVE; integer BACK; integer SHOWN)
(| MONEY := ZMONEY + COIN
   default (ZMONEY - 50) when GIVE
   default 0 when CANCEL
   default ZMONEY
 | ZMONEY := MONEY $ init 0
 | GIVE := DRINK and ZMONEY >= 50
 | BACK := ZMONEY when CANCEL
 | SHOWN := MONEY
 |)
where integer MONEY, ZMONEY; end;

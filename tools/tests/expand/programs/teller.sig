type STATE = enum (idle, pin, amount, paying, blocked);
constant integer TRIES = 3;
process TELLER = (? boolean CARD, KEYED, OK; integer AMOUNT; integer BALANCE ! STATE S; integer PAID; boolean KEEP)
(| CARD ^= KEYED ^= OK ^= AMOUNT ^= BALANCE ^= S
 | automaton S
     state idle do (| PAID := 0 | KEEP := false |)
       until CARD go pin
     state pin do (| PAID := 0 | KEEP := false
        | BAD := (if KEYED and not OK then 1 else 0) + ZBAD | ZBAD := BAD $ 1 init 0 |) where integer BAD, ZBAD; end
       until KEYED and OK go amount
       until BAD >= TRIES go blocked
     state amount do (| PAID := 0 | KEEP := false |)
       until KEYED and AMOUNT <= BALANCE go paying
       until not CARD go idle
     state paying do (| PAID := AMOUNT | KEEP := false |)
       until true go idle
     state blocked do (| PAID := 0 | KEEP := true |)
   end
 | assert(PAID <= BALANCE or PAID = 0)
 |);

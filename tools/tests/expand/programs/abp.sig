% The alternating bit protocol: a sender repeats until its bit is acknowledged; both channels may lose. %
type KIND = enum (idle, sent);
process ABP = (? integer MSG; boolean LOSE_DATA, LOSE_ACK ! integer GOT; boolean BIT; KIND S)
(| LOSE_DATA ^= LOSE_ACK ^= BIT ^= S
 | MSG ^= when DONE
 | DONE := ZS = #idle
 | ZS := S $ 1 init #idle
 | HELD := MSG cell ^S init 0
 | BIT := if DONE then not ZBIT else ZBIT
 | ZBIT := BIT $ 1 init false
 | (DATA, DBIT) := CHANNEL(HELD, BIT, LOSE_DATA)
 | NEW := DBIT /= (EXPECT when ^DBIT)
 | EXPECT := LASTBIT $ 1 init false
 | LASTBIT := DBIT default EXPECT
 | LASTBIT ^= S
 | GOT := DATA when NEW
 | ACK := LASTBIT when not LOSE_ACK
 | S := if (ACK = (BIT when ^ACK)) default false then #idle else #sent
 |)
where
  boolean DONE, DBIT, NEW, EXPECT, LASTBIT, ZBIT, ACK; integer HELD, DATA; KIND ZS;
  process CHANNEL = (? integer D; boolean B, LOSE ! integer E; boolean C)
    (| E := D when not LOSE | C := B when not LOSE |);
end;

% A token bucket: at each instant a token is added, up to five. A packet passes where two tokens are there, and takes them. %
process BUCKET = (? boolean PACKET ! boolean PASSED; integer TOKENS)
(| FILLED := (5 when (ZTOKENS >= 5)) default (ZTOKENS + 1)
 | ZTOKENS := TOKENS $ init 5
 | FILLED ^= PACKET
 | PASSED := PACKET and FILLED >= 2
 | TOKENS := ((FILLED - 2) when PASSED) default FILLED
 |)
where integer FILLED, ZTOKENS; end;

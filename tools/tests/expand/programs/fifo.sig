constant integer SIZE = 4;
process FIFO = (? integer PUT; boolean GET; boolean HAS_PUT ! integer GOT; integer LEVEL; boolean OVER)
(| GET ^= HAS_PUT ^= LEVEL | PUT ^= when HAS_PUT
 | ACCEPTED := HAS_PUT and ZLEVEL < SIZE
 | TAKEN := GET and ZLEVEL > 0
 | OVER := HAS_PUT and not ACCEPTED
 | MEM := (TAIL : (PUT when ACCEPTED) default (ZMEM[TAIL])) next ZMEM
 | ZMEM := MEM $ 1 init 0
 | HEAD := HEAD_NEXT $ 1 init 0 | TAIL := TAIL_NEXT $ 1 init 0
 | HEAD_NEXT := if TAKEN then (HEAD + 1) modulo SIZE else HEAD
 | TAIL_NEXT := if ACCEPTED then (TAIL + 1) modulo SIZE else TAIL
 | GOT := ZMEM[HEAD] when TAKEN
 | LEVEL := ZLEVEL + (if ACCEPTED then 1 else 0) - (if TAKEN then 1 else 0)
 | ZLEVEL := LEVEL $ 1 init 0
 | MEM ^= LEVEL
 | assert(LEVEL >= 0 and LEVEL <= SIZE)
 |)
where [SIZE] integer MEM, ZMEM; integer HEAD, TAIL, HEAD_NEXT, TAIL_NEXT, ZLEVEL; boolean ACCEPTED, TAKEN; end;

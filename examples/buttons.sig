% Two buttons that come independently of each other, and how often each was pressed. The program has no root: it is
  compiled with the flag --pace. %
process BUTTONS = (? event RED, GREEN ! integer REDS, GREENS)
(| REDS := (REDS $ init 0) + 1
 | REDS ^= RED
 | GREENS := (GREENS $ init 0) + 1
 | GREENS ^= GREEN
 |);

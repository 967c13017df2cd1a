process BALANCE = (? integer OPENING, PAID, FEE ! integer LEFT)
  LEFT := OPENING - PAID - FEE;

process SUM = (? integer A, B ! integer Y)
  Y := A + B;

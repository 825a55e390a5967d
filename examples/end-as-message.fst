-- Messages are numbers, truth values, characters and (): an end can't be sent, but handed on as in handing.fst.
main : Int
main =
  let (a, b) = new !Int in
  let (c, d) = new !Int in
  fork (send b c);
  send 5 a;
  let (n, e) = receive d in
  n

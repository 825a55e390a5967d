-- What stands in front of ; is dropped, and an end on which something is left to do can't be.
main : Int
main =
  let (a, b) = new (!Int; !Int) in
  fork (let (x, b) = receive b in receive b);
  send 1 a;
  5

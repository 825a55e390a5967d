-- An end is left that still has to be closed, and the other side would wait for that for ever.
main : Int
main =
  let (a, b) = new (!Int;Close) in
  fork (let (n, b) = receive b in wait b);
  let a = send 5 a in
  5

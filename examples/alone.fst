-- A task that has both ends of a channel waits for itself.
main : Int
main =
  let (a, b) = new !Int in
  let (n, c) = receive b in
  send n a;
  n

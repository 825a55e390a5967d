-- One task sends a number over a new channel, and the other one receives it.
main : Int
main =
  let (a, b) = new !Int in
  fork (answer a);
  let (n, c) = receive b in
  n

answer : !Int -> Skip
answer c = send 42 c

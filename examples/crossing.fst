-- Two tasks both send before they receive. Where sender and receiver have to meet, each waits for the other one to receive; where
-- a channel holds a number until it is received, both go on.
exchange : Int -> !Int -> ?Int 1-> Int
exchange n c d =
  let c = send n c in
  let (m, d) = receive d in
  m

main : Int
main =
  let (a, b) = new !Int in
  let (c, d) = new !Int in
  fork (exchange 2 c b);
  exchange 1 a d

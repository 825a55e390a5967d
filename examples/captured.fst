-- A function with the arrow -> may be called often, so it can't hold an end; closure.fst has the arrow that may.
main : Int
main =
  let (a, b) = new !Int in
  let done = \n:Int -> send n a in
  fork (done 1);
  let (n, c) = receive b in
  n

-- A function that holds an end is linear, with the arrow 1->: whoever gets it calls it exactly once.
double : Int -> (Int 1-> Skip) -> Skip
double n done = if n > 9 then done n else double (n * 2) done

main : Int
main =
  let (a, b) = new !Int in
  let done = \n:Int 1-> send n a in
  fork (double 3 done);
  let (n, c) = receive b in
  n

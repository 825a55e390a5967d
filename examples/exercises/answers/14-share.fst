-- A forked task does the one half and sends what came out, while this task does the other one. Only
-- the message waits for both.
work : Int -> Int
work n = if n == 0 then 7 else 3 * work (n - 1) - n

difference : Int -> Int -> Int
difference m n =
  let (a, b) = new !Int in
  fork (send (work m) a);
  let right = work n in
  let (left, b) = receive b in
  left - right

main : Int
main = difference 10 9

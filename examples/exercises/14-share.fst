-- difference has work done twice, one behind the other, and `run --events` shows it: the last stamp
-- is 45. Let two tasks do it at the same time, so that the last stamp isn't over 35. work stays as
-- it is.
work : Int -> Int
work n = if n == 0 then 7 else 3 * work (n - 1) - n

difference : Int -> Int -> Int
difference m n = work m - work n

main : Int
main = difference 10 9

-- A protocol that comes back to itself: numbers follow as long as the receiver asks for more.
type Wanted = rec s. +{More: ?Int; s, Enough: Skip}
type Given = rec s. &{More: !Int; s, Enough: Skip}

count : Int -> Given -> Skip
count n c = match c with {
  More c -> count (n + 1) (send n c),
  Enough c -> c }

total : Int -> Wanted -> Int
total k c =
  if k == 0 then
    select Enough c; 0
  else
    let (n, c) = receive (select More c) in
    n + total (k - 1) c

main : Int
main =
  let (a, b) = new Wanted in
  fork (count 1 b);
  total 4 a

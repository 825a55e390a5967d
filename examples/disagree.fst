-- Two types that differ behind a tree: the refusal shows the least trace that only one of them performs.
type Tree = rec t. +{Leaf: Skip, Node: t; !Int; t}

one : Tree; ?Int -> Int
one c =
  let (n, d) = receive (select Leaf c) in
  n

other : Tree; ?Bool -> Int
other c = one c

main : Int
main = 5

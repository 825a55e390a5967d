-- Tasks in a row: each takes numbers from the task before it and passes something on to the next one.
type Out = rec s. +{Next: !Int; s, End: Skip}
type In = rec s. &{Next: ?Int; s, End: Skip}

source : Int -> Out -> Skip
source n c =
  if n == 0 then select End c
  else source (n - 1) (send n (select Next c))

square : In -> Out 1-> Skip
square c d = match c with {
  Next c ->
    let (n, c) = receive c in
    square c (send (n * n) (select Next d)),
  End c -> select End d }

sum : Int -> In -> Int
sum total c = match c with {
  Next c ->
    let (n, c) = receive c in
    sum (total + n) c,
  End c -> total }

main : Int
main =
  let (a, b) = new Out in
  let (c, d) = new Out in
  fork (source 3 a);
  fork (square b c);
  sum 0 d

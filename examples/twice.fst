-- A function over any type: twice applies a function two times, here to a number and there to the end of a channel.
type Out = rec s. +{Next: !Int; s, End: Skip}
type In = rec s. &{Next: ?Int; s, End: Skip}

twice : forall a:1T. (a -> a) -> a -> a
twice f x = f (f x)

sum : In -> Int
sum c = match c with {
  Next c ->
    let (n, c) = receive c in
    n + sum c,
  End c -> 0 }

main : (Int, Int)
main =
  let (a, b) = new Out in
  fork (select End (twice @Out (\c:Out -> send 7 (select Next c)) a));
  (twice @Int (\n:Int -> n * n) 3, sum b)

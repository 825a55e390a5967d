-- A list goes over a channel, behind which the protocol goes on with anything: here with the list's sum, back to the sender.
data List = Nil | Cons Int List

type ListC = rec x. +{Nil: Skip, Cons: !Int; x}
type ListD = rec x. &{Nil: Skip, Cons: ?Int; x}

sendList : forall a:1S. List -> ListC;a -> a
sendList xs c = case xs of {
  Nil -> select Nil c,
  Cons x xs -> sendList @a xs (send x (select Cons c)) }

receiveList : forall a:1S. ListD;a -> (List, a)
receiveList c = match c with {
  Nil c -> (Nil, c),
  Cons c ->
    let (x, c) = receive c in
    let (xs, c) = receiveList @a c in
    (Cons x xs, c) }

sum : List -> Int
sum xs = case xs of {
  Nil -> 0,
  Cons x xs -> x + sum xs }

serve : ListD;!Int -> Skip
serve c =
  let (xs, c) = receiveList @!Int c in
  send (sum xs) c

main : (List, Int)
main =
  let (a, b) = new (ListC; ?Int) in
  fork (serve b);
  let xs = Cons 7 (Cons 0 (Cons (0 - 2) Nil)) in
  let (n, c) = receive (sendList @?Int xs a) in
  (xs, n)

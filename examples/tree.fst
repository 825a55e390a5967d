-- A whole tree travels over one channel: sendTree sends it, and sumTree adds up its numbers.
data Tree = Leaf | Node Tree Int Tree
type Sent = rec x. +{Leaf: Skip, Node: x; !Int; x}
type Received = rec x. &{Leaf: Skip, Node: x; ?Int; x}

sendTree : forall a: 1S. Tree -> Sent; a -> a
sendTree tree c = case tree of {
  Leaf -> select Leaf c,
  Node left n right ->
    let c = select Node c in
    let c = sendTree @(!Int; Sent; a) left c in
    let c = send n c in
    sendTree @a right c }

sumTree : forall a: 1S. Received; a -> (Int, a)
sumTree c = match c with {
  Leaf c -> (0, c),
  Node c ->
    let (l, c) = sumTree @(?Int; Received; a) c in
    let (n, c) = receive c in
    let (r, c) = sumTree @(a) c in
    ((l + n) + r, c) }

main : Int
main =
  let (a, b) = new Sent in
  fork (sendTree @Skip (Node (Node Leaf 1 Leaf) 2 (Node Leaf 3 Leaf)) a);
  let (n, c) = sumTree @Skip b in
  n

-- A tree goes over a channel, and a truth value closes what Both opens. Each Both puts a tree and a
-- truth value behind the tree that comes first, without bound. In a regular type a variable stands
-- at the end alone, so nothing could wait there.
data Tree = Leaf Int | Both Tree Tree
type Sent = rec x. +{Leaf: !Int, Both: x;x;!Bool}
type Received = rec x. &{Leaf: ?Int, Both: x;x;?Bool}

sendTree : forall a:1S. Tree -> Sent;a -> a
sendTree tree c = case tree of {
  Leaf n -> send n (select Leaf c),
  Both left right ->
    let c = select Both c in
    let c = sendTree @(Sent;!Bool;a) left c in
    let c = sendTree @(!Bool;a) right c in
    send True c }

sumTree : forall a:1S. Received;a -> (Int, a)
sumTree c = match c with {
  Leaf c -> receive c,
  Both c ->
    let (l, c) = sumTree @(Received;?Bool;a) c in
    let (r, c) = sumTree @(?Bool;a) c in
    let (closed, c) = receive c in
    (l + r, c) }

main : Int
main =
  let (a, b) = new Sent in
  fork (sendTree @Skip (Both (Both (Leaf 1) (Leaf 2)) (Leaf 3)) a);
  let (n, c) = sumTree @Skip b in
  n

-- The numbers of a tree go over a channel, and behind each one its answer comes back: the sum of
-- all numbers so far, this one included. Write sums, which answers a tree, whatever follows behind
-- it. It is given the sum of what came before this tree, and gives back the sum with the numbers of
-- this tree.
data Tree = Leaf | Node Tree Int Tree
type Client = rec x. +{Leaf: Skip, Node: x;!Int;?Int;x}
type Server = rec x. &{Leaf: Skip, Node: x;?Int;!Int;x}

sums : forall a:1S. Int -> Server;a -> (Int, a)
sums total c = (total, c)

exchange : forall a:1S. Tree -> Client;a -> (Tree, a)
exchange tree c = case tree of {
  Leaf -> (Leaf, select Leaf c),
  Node left n right ->
    let (left, c) = exchange @(!Int;?Int;Client;a) left (select Node c) in
    let (n, c) = receive (send n c) in
    let (right, c) = exchange @a right c in
    (Node left n right, c) }

main : Tree
main =
  let (a, b) = new Client in
  fork (let (total, b) = sums @Skip 0 b in b);
  let (tree, a) = exchange @Skip (Node (Node Leaf 1 Leaf) 2 (Node Leaf 3 Leaf)) a in
  tree

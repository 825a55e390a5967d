-- Behind a value within a list the rest of that list is left, so the server needs a name for the
-- list's type, too. It is written out once more there, and is equivalent to what stands in Value.
type Value = rec v. &{Null: Skip, Number: ?Int, List: rec l. &{Item: v;l, End: Skip}}
type Items = rec l. &{Item: Value;l, End: Skip}
type Server = Value;!Int;!Int

value : forall a:1S. Int -> Int -> Value;a -> ((Int, Int), a)
value count sum c = match c with {
  Null c -> ((count, sum), c),
  Number c ->
    let (n, c) = receive c in
    ((count + 1, sum + n), c),
  List c -> items @a count sum c }

items : forall a:1S. Int -> Int -> Items;a -> ((Int, Int), a)
items count sum c = match c with {
  Item c ->
    let (found, c) = value @(Items;a) count sum c in
    let (count, sum) = found in
    items @a count sum c,
  End c -> ((count, sum), c) }

serve : Server -> Skip
serve c =
  let (found, c) = value @(!Int;!Int) 0 0 c in
  let (count, sum) = found in
  send sum (send count c)

main : (Int, Int)
main =
  let (a, b) = new ((rec v. +{Null: Skip, Number: !Int, List: rec l. +{Item: v;l, End: Skip}});?Int;?Int) in
  fork (serve b);
  let a = send 20 (select Number (select Item (select List a))) in
  let a = send 22 (select Number (select Item a)) in
  let (count, a) = receive (select End a) in
  let (sum, a) = receive a in
  (count, sum)

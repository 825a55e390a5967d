-- An expression goes over a channel, each operator before its two operands, and its value comes back when it is whole.
data Expr = Number Int | Sum Expr Expr | Product Expr Expr
type Sent = rec e. +{Number: !Int, Sum: e; e, Product: e; e}
type Received = rec e. &{Number: ?Int, Sum: e; e, Product: e; e}

sendExpr : forall a:1S. Expr -> Sent; a -> a
sendExpr e c = case e of {
  Number n -> send n (select Number c),
  Sum l r -> sendExpr @a r (sendExpr @(Sent; a) l (select Sum c)),
  Product l r -> sendExpr @a r (sendExpr @(Sent; a) l (select Product c)) }

evaluate : forall a:1S. Received; a -> (Int, a)
evaluate c = match c with {
  Number c -> receive c,
  Sum c ->
    let (x, c) = evaluate @(Received; a) c in
    let (y, c) = evaluate @a c in
    (x + y, c),
  Product c ->
    let (x, c) = evaluate @(Received; a) c in
    let (y, c) = evaluate @a c in
    (x * y, c) }

serve : Received; !Int -> Skip
serve c =
  let (n, c) = evaluate @!Int c in
  send n c

main : Int
main =
  let (a, b) = new (Sent; ?Int) in
  fork (serve b);
  let e = Sum (Number 2) (Product (Number 3) (Number 4)) in
  let (n, c) = receive (sendExpr @?Int e a) in
  n

-- A data type with one constructor is a record: its fields go over a channel one by one, and make the record again behind it.
data Order = Order Int Char Bool
type Sent = !Int; !Char; !Bool
type Received = ?Int; ?Char; ?Bool

sendOrder : Order -> Sent -> Skip
sendOrder order c = case order of {
  Order number kind paid -> send paid (send kind (send number c)) }

receiveOrder : Received -> Order
receiveOrder c =
  let (number, c) = receive c in
  let (kind, c) = receive c in
  let (paid, d) = receive c in
  Order number kind paid

pay : Order -> Order
pay order = case order of {Order number kind paid -> Order number kind True}

main : Order
main =
  let (a, b) = new Sent in
  fork (sendOrder (Order 12 'b' False) a);
  pay (receiveOrder b)

-- A bank account, which says of each withdrawal whether it is paid.
type Account = rec a. &{Deposit: ?Int; a, Withdraw: ?Int; +{Paid: a, Refused: a}, Balance: !Int; a, Leave: Skip}
type Client = rec a. +{Deposit: !Int; a, Withdraw: !Int; &{Paid: a, Refused: a}, Balance: ?Int; a, Leave: Skip}

account : Int -> Account -> Skip
account n c = match c with {
  Deposit c ->
    let (x, c) = receive c in
    account (n + x) c,
  Withdraw c ->
    let (x, c) = receive c in
    if x <= n then account (n - x) (select Paid c) else account n (select Refused c),
  Balance c -> account n (send n c),
  Leave c -> c }

withdraw : Int -> Client -> (Bool, Client)
withdraw n c = match send n (select Withdraw c) with {
  Paid c -> (True, c),
  Refused c -> (False, c) }

main : ((Bool, Bool), Int)
main =
  let (a, b) = new Client in
  fork (account 0 b);
  let c = send 100 (select Deposit a) in
  let (first, c) = withdraw 70 c in
  let (second, c) = withdraw 70 c in
  let (rest, c) = receive (select Balance c) in
  let d = select Leave c in
  ((first, second), rest)

-- A machine takes coins for a drink and gives change. Its type is the client's with ? for ! and &
-- for +, and the other way round, within a choice too.
type Client = !Int;&{Drink: ?Int, Broke: +{Leave: Skip, Beg: !Char}}
type Machine = ?Int;+{Drink: !Int, Broke: &{Leave: Skip, Beg: ?Char}}

serve : Machine -> Skip
serve c =
  let (coins, c) = receive c in
  if coins < 2 then
    match select Broke c with {
      Leave c -> c,
      Beg c -> let (x, c) = receive c in c }
  else send (coins - 2) (select Drink c)

buy : Client -> Int
buy c = match send 5 c with {
  Drink c -> let (change, c) = receive c in change,
  Broke c -> let c = select Leave c in 0 }

main : Int
main =
  let (a, b) = new Client in
  fork (serve b);
  buy a

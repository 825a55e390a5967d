-- The shop says which way it goes, so the other side learns whether a price follows.
data Answer = Costs Int | Nothing
type Client = !Int;&{Price: ?Int, Unknown: Skip}
type Shop = ?Int;+{Price: !Int, Unknown: Skip}

shop : Shop -> Skip
shop c =
  let (thing, c) = receive c in
  if thing == 1 then send 30 (select Price c)
  else if thing == 2 then send 45 (select Price c)
  else select Unknown c

ask : Int -> Client -> Answer
ask thing c = match send thing c with {
  Price c ->
    let (price, c) = receive c in
    Costs price,
  Unknown c -> Nothing }

main : (Answer, Answer)
main =
  let (a, b) = new Client in
  let (c, d) = new Client in
  fork (shop b);
  fork (shop d);
  (ask 2 a, ask 3 c)

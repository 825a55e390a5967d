-- A shop is asked for the price of a thing, by its number. It sells two things alone, and of others
-- it says nothing: its client would wait for ever. Give the protocol a choice: the shop selects
-- Price, and sends the price, or Unknown, and sends nothing. Then mend shop and ask: ask gives
-- Costs and the price, or Nothing.
data Answer = Costs Int | Nothing
type Client = !Int;?Int
type Shop = ?Int;!Int

shop : Shop -> Skip
shop c =
  let (thing, c) = receive c in
  if thing == 1 then send 30 c
  else if thing == 2 then send 45 c
  else c

ask : Int -> Client -> Answer
ask thing c =
  let (price, c) = receive (send thing c) in
  Costs price

main : (Answer, Answer)
main =
  let (a, b) = new Client in
  let (c, d) = new Client in
  fork (shop b);
  fork (shop d);
  (ask 2 a, ask 3 c)

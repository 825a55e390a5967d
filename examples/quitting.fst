-- A client that quits closes at once: what stands behind the choice is reached by the other branch alone.
type Client = +{Go: Skip, Quit: Close};!Int;?Int;Close
type Server = &{Go: Skip, Quit: Wait};?Int;!Int;Wait

serve : Server -> ()
serve c = match c with {
  Go c -> let (n, c) = receive c in wait (send (n * n) c),
  Quit c -> wait c }

square : Int -> Client -> Int
square n c =
  let (m, c) = receive (send n (select Go c)) in
  close c; m

quit : Client -> ()
quit c = close (select Quit c)

main : Int
main =
  let (a, b) = new Client in
  let (c, d) = new Client in
  fork (serve b);
  fork (serve d);
  quit a;
  square 7 c

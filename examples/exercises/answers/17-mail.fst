-- Text is a recursion of its own, and the answer stands behind it; so its function takes an end on
-- which anything may follow.
type Text = rec t. &{Letter: ?Char;t, End: Skip}
type Session = rec s. &{Check: ?Int;!Bool;s, Mail: ?Int;+{Known: Text;!Int;s, Unknown: s}, Quit: Wait}
type Server = &{Hello: Session}

isBox : Int -> Bool
isBox n = 1 <= n && n <= 9

letters : forall a:1S. Int -> Text;a -> (Int, a)
letters n c = match c with {
  Letter c ->
    let (letter, c) = receive c in
    letters @a (n + 1) c,
  End c -> (n, c) }

session : Session -> ()
session c = match c with {
  Check c ->
    let (box, c) = receive c in
    session (send (isBox box) c),
  Mail c ->
    let (box, c) = receive c in
    if isBox box then
      let (n, c) = letters @(!Int;Session) 0 (select Known c) in
      session (send n c)
    else session (select Unknown c),
  Quit c -> wait c }

serve : Server -> ()
serve c = match c with {
  Hello c -> session c }

type Client = +{Hello: rec s. +{Check: !Int;?Bool;s, Mail: !Int;&{Known: Sent;?Int;s, Unknown: s}, Quit: Close}}
type Sent = rec t. +{Letter: !Char;t, End: Skip}

main : Int
main =
  let (a, b) = new Client in
  fork (serve b);
  match send 3 (select Mail (select Hello a)) with {
    Known c ->
      let (n, c) = receive (select End (send 'i' (select Letter (send 'h' (select Letter c))))) in
      close (select Quit c); n,
    Unknown c -> close (select Quit c); 0 }

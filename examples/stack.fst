-- A stack of numbers: what is pushed last is popped first, and an empty stack can't be popped, as the protocol has it.
type Empty = rec e. &{Push: ?Int; (rec n. &{Push: ?Int; n; n, Pop: !Int}); e, Stop: Skip}
type Full = rec n. &{Push: ?Int; n; n, Pop: !Int}
type Client = rec e. +{Push: !Int; (rec n. +{Push: !Int; n; n, Pop: ?Int}); e, Stop: Skip}

empty : Empty -> Skip
empty c = match c with {
  Push c ->
    let (x, c) = receive c in
    empty (full @Empty x c),
  Stop c -> c }

full : forall a:1S. Int -> Full;a -> a
full x c = match c with {
  Push c ->
    let (y, c) = receive c in
    full @a x (full @(Full;a) y c),
  Pop c -> send x c }

main : (Int, (Int, Int))
main =
  let (a, b) = new Client in
  fork (empty b);
  let c = send 2 (select Push (send 1 (select Push a))) in
  let (x, c) = receive (select Pop c) in
  let c = send 3 (select Push c) in
  let (y, c) = receive (select Pop c) in
  let (z, c) = receive (select Pop c) in
  let d = select Stop c in
  (x, (y, z))

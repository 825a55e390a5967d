-- A recursive type that does nothing before it comes back to itself is no protocol.
type Nothing = rec x. Skip; x

main : Int
main = 5

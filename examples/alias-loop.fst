-- A name for a type can't lead back to itself: a protocol that goes on is written with rec, as in stream.fst.
type Stream = !Int; Stream

main : Int
main = 5

-- Behind n times &Open stand n + 1 times Count and then Free: another type for each n, so there is
-- no end of pairs, and no budget has room for all. Nothing is dropped, since Count can end and Free
-- can't. With one text for both types nothing is left to be looked at.
type Count = rec x. &{Open: x;x, Shut: Skip}
type Free = rec y. &{Open: y, Shut: y}

type BehindOpen = Count;Count;Free
type BehindOpenOpen = Count;Count;Count;Free
type BehindOpenShut = Count;Free

forward : Free -> Free
forward c = c

main : Int
main = 5

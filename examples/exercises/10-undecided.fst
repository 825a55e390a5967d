-- Count opens and shuts until Shut has come once more than Open, and Free does both for ever. No
-- budget decides whether forward may give its end back at the type Free, though no trace shows a
-- difference. To see why, write with Count and Free what is left of Count;Free behind &Open, behind
-- &Open &Open and behind &Open &Shut. Then give forward another signature, so that the question is
-- decided and both of its types still have the same traces as now.
type Count = rec x. &{Open: x;x, Shut: Skip}
type Free = rec y. &{Open: y, Shut: y}

type BehindOpen = Skip
type BehindOpenOpen = Skip
type BehindOpenShut = Skip

forward : Count;Free -> Free
forward c = c

main : Int
main = 5

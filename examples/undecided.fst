-- Two types that are equivalent, and that no budget shows to be so: the module is neither accepted nor refused.
type Count = rec x. +{Down: Skip, Up: x; x}
type Free = rec y. +{Down: y, Up: y}

same : Count; Free -> Free
same c = c

main : Int
main = 5

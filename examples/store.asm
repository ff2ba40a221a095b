; Sets field 0 of the node of number v0 to v1.
arity 2
    first n0 v0 else L3
    put n0 0 v1
    rel n0
L3:
    ret

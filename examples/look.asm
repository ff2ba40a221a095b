; Answers field 0 of the node of number v0.
arity 1
    first n0 v0 else L4
    get v1 n0 0
    emit v1
    rel n0
L4:
    ret

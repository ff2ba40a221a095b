; Adds v1 to field 0 of the node of number v0, and answers the sum.
; A sum that doesn't fit 64 bits leaves the field, and the answer is what the field has.
arity 2
    first n0 v0 else L6
    get v2 n0 0
    add v2 v2 v1 else L4
    put n0 0 v2
L4:
    emit v2
    rel n0
L6:
    ret

; Sets field 0 of the root's first child to v0, lets it go, and answers field 0 of the second child.
arity 1
    first n0 v1 else L10
    child n1 n0 v1 else L9
    put n1 0 v0
    rel n1
    set v2 1
    child n1 n0 v2 else L9
    get v3 n1 0
    emit v3
    rel n1
L9:
    rel n0
L10:
    ret

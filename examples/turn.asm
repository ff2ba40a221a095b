; Locks the root's second child, lets it go, and tries the first: its cursor is past it, so that takes the else branch.
arity 0
    first n0 v0 else L9
    set v1 1
    child n1 n0 v1 else L8
    rel n1
    child n1 n0 v0 else L7
    emit v1
    rel n1
L7:
    emit v0
L8:
    rel n0
L9:
    ret

; Goes from the node of number v0 to its first child, and so on, at most twelve times, and answers field 0 of the
; node that it comes to. A node is let go once its child is held.
arity 1
    first n0 v0 else L9
    rep 12
    child n1 n0 v1 else L6
    rel n0
    move n0 n1
    end
L6:
    get v2 n0 0
    emit v2
    rel n0
L9:
    ret

; Adds v0 to field 0 of the root, of its first child, and so on down, at most twelve nodes.
arity 1
    first n0 v1 else L10
    rep 12
    get v2 n0 0
    add v2 v2 v0 else L4
L4:
    put n0 0 v2
    child n1 n0 v1 else L9
    rel n0
    move n0 n1
    end
L9:
    rel n0
L10:
    ret

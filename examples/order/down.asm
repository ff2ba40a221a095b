; Goes from the root to its first child and on to that node's first child, letting go of each node behind it.
; Answers field 0 of the root and of the last node.
arity 0
first n0 v0 else end
get v1 n0 0
emit v1
child n1 n0 v0 else root
rel n0
child n2 n1 v0 else middle
rel n1
get v1 n2 0
emit v1
rel n2
ret
middle:
rel n1
ret
root:
rel n0
end:
ret

; Writes a number to field 0 of a node: the node's number, then what is written.
arity 2
first n0 v0 else end
put n0 0 v1
rel n0
end:
ret

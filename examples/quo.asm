; Answers v0 by v1, rounded toward 0. By 0, and where the quotient doesn't fit 64 bits, it answers nothing.
arity 2
    div v2 v0 v1 else L2
    emit v2
L2:
    ret

; Takes v0 pieces from a shelf of an aisle and puts them onto another shelf of it.
; v1: the aisle's node. v2, v3: the shelf to take from, and the one to put onto, each counted from 0.
; Answers how many pieces were moved: v0, or 0 where the stock is short, a shelf isn't there, or v0 is below 0.
arity 4
    jlt v0 v7 done              ; v7 is 0
    first n0 v1 else done
    jlt v2 v3 take_comes_first  ; children are locked by rising number
    child n2 n0 v3 else leave_aisle
    child n1 n0 v2 else leave_put
    jmp both_shelves
take_comes_first:
    child n1 n0 v2 else leave_aisle
    child n2 n0 v3 else leave_take
both_shelves:
    rel n0
    get v8 n1 0
    jlt v8 v0 leave_both        ; the stock is short
    sub v8 v8 v0 else leave_both
    get v9 n2 0
    add v9 v9 v0 else leave_both
    put n1 0 v8
    put n2 0 v9
    copy v10 v0
leave_both:
    rel n1
    rel n2
    jmp done
leave_put:
    rel n2
    jmp leave_aisle
leave_take:
    rel n1
leave_aisle:
    rel n0
done:
    emit v10
    ret

//! The procedures of the measured work, as containers.

/// One instruction of eight bytes: opcode, three operands, and a number of 32 bits.
fn instruction(opcode: u8, x: u8, y: u8, z: u8, number: u32) -> [u8; 8] {
    let [a, b, c, d] = number.to_be_bytes();
    [opcode, x, y, z, a, b, c, d]
}

fn set(x: u8, number: i32) -> [u8; 8] {
    instruction(1, x, 0, 0, number as u32)
}

fn arithmetic(opcode: u8, x: u8, y: u8, z: u8, otherwise: usize) -> [u8; 8] {
    instruction(opcode, x, y, z, otherwise as u32)
}

fn jump_if_less(x: u8, y: u8, target: usize) -> [u8; 8] {
    instruction(8, x, y, 0, target as u32)
}

fn repeat(count: u16) -> [u8; 8] {
    instruction(10, 0, 0, 0, u32::from(count))
}

fn end() -> [u8; 8] {
    instruction(11, 0, 0, 0, 0)
}

fn first(node: u8, value: u8, otherwise: usize) -> [u8; 8] {
    instruction(12, node, value, 0, otherwise as u32)
}

fn child(node: u8, parent: u8, value: u8, otherwise: usize) -> [u8; 8] {
    instruction(13, node, parent, value, otherwise as u32)
}

fn move_node(to: u8, from: u8) -> [u8; 8] {
    instruction(14, to, from, 0, 0)
}

fn release(node: u8) -> [u8; 8] {
    instruction(15, node, 0, 0, 0)
}

fn get(value: u8, node: u8, field: u8) -> [u8; 8] {
    instruction(16, value, node, field, 0)
}

fn put(node: u8, field: u8, value: u8) -> [u8; 8] {
    instruction(17, node, field, value, 0)
}

fn emit(value: u8) -> [u8; 8] {
    instruction(19, value, 0, 0, 0)
}

fn finish() -> [u8; 8] {
    instruction(20, 0, 0, 0, 0)
}

/// A container of these instructions.
fn container(arity: u8, instructions: &[[u8; 8]]) -> Vec<u8> {
    let mut bytes = b"TLP1".to_vec();
    bytes.push(arity);
    bytes.push(0);
    bytes.extend((instructions.len() as u16).to_be_bytes());
    bytes.extend(instructions.iter().flatten());
    bytes
}

/// A loop in a loop whose body is arithmetic on registers.
pub fn arithmetic_loop() -> Vec<u8> {
    let mut code = vec![set(0, 1), set(1, 3), set(2, 1_000), repeat(1_000), repeat(110)];
    let body = code.len();
    code.push(arithmetic(3, 3, 3, 0, body + 1));
    code.push(arithmetic(5, 4, 0, 1, body + 2));
    code.push(arithmetic(4, 5, 3, 4, body + 3));
    code.push(arithmetic(6, 6, 5, 1, body + 4));
    code.push(arithmetic(3, 7, 6, 5, body + 5));
    code.push(jump_if_less(7, 2, body + 7));
    code.push(arithmetic(4, 3, 3, 2, body + 7));
    code.push(end());
    code.push(end());
    code.push(emit(3));
    code.push(emit(7));
    code.push(finish());
    container(0, &code)
}

/// A loop in a loop whose body reads and writes fields of one held node.
pub fn field_loop() -> Vec<u8> {
    let mut code = vec![set(1, 1), first(0, 0, 15), repeat(1_000), repeat(123)];
    let body = code.len();
    code.push(get(2, 0, 0));
    code.push(arithmetic(3, 2, 2, 1, body + 2));
    code.push(put(0, 0, 2));
    code.push(get(3, 0, 1));
    code.push(put(0, 2, 3));
    code.push(get(4, 0, 2));
    code.push(put(0, 3, 4));
    code.push(end());
    code.push(end());
    code.push(emit(2));
    code.push(release(0));
    assert_eq!(code.len(), 15);
    code.push(finish());
    container(0, &code)
}

/// Loops in one another with nothing in the innermost.
pub fn bare_loops() -> Vec<u8> {
    container(0, &[repeat(1_000), repeat(100), repeat(7), end(), end(), end(), finish()])
}

/// A lock and a free of the argument's node.
pub fn touch() -> Vec<u8> {
    container(1, &[first(0, 0, 2), release(0), finish()])
}

/// A walk from the node of the argument down first children, so many locks, which adds 1 to field 0 of each node, and
/// emits what the last one has then.
pub fn walk(locks: u16) -> Vec<u8> {
    let code = vec![
        set(3, 1),
        first(0, 0, 15),
        repeat(locks - 1),
        get(2, 0, 0),
        arithmetic(3, 2, 2, 3, 6),
        put(0, 0, 2),
        child(1, 0, 1, 10),
        release(0),
        move_node(0, 1),
        end(),
        get(2, 0, 0),
        arithmetic(3, 2, 2, 3, 13),
        put(0, 0, 2),
        emit(2),
        release(0),
        finish(),
    ];
    container(1, &code)
}

/// A lock of the argument's node, five times so many local instructions as there are turns, a lock of its first child, to whose
/// field 0 it adds 1, and as many local instructions again.
pub fn two_locks(turns: u16) -> Vec<u8> {
    let mut code = vec![set(1, 1), first(0, 0, 22)];
    local_loop(&mut code, turns);
    code.push(child(1, 0, 2, 21));
    code.push(release(0));
    code.push(get(3, 1, 0));
    code.push(arithmetic(3, 3, 3, 1, 12));
    code.push(put(1, 0, 3));
    local_loop(&mut code, turns);
    code.push(release(1));
    code.push(finish());
    assert_eq!(code.len(), 21);
    code.push(release(0));
    assert_eq!(code.len(), 22);
    code.push(finish());
    container(1, &code)
}

/// So many turns of four instructions and the end.
fn local_loop(code: &mut Vec<[u8; 8]>, turns: u16) {
    code.push(repeat(turns));
    let body = code.len();
    code.push(arithmetic(3, 4, 4, 1, body + 1));
    code.push(arithmetic(4, 5, 4, 1, body + 2));
    code.push(arithmetic(3, 6, 5, 1, body + 3));
    code.push(jump_if_less(6, 1, body + 4));
    code.push(end());
}

/// From the root down to the head that is the argument, on a tree of chains of that length, and on to the end of the chain, to whose
/// field 0 it adds 1, and which it emits.
pub fn descend(chain: u16) -> Vec<u8> {
    let code = vec![
        set(2, i32::from(chain)),
        set(3, 1),
        arithmetic(4, 4, 0, 3, 18),
        arithmetic(6, 4, 4, 2, 18),
        first(0, 1, 18),
        child(1, 0, 4, 13),
        release(0),
        move_node(0, 1),
        repeat(chain - 1),
        child(1, 0, 1, 13),
        release(0),
        move_node(0, 1),
        end(),
        get(5, 0, 0),
        arithmetic(3, 5, 5, 3, 15),
        put(0, 0, 5),
        emit(5),
        release(0),
        finish(),
    ];
    container(1, &code)
}

/// A walk that does nothing on the way.
pub fn bare_walk(locks: u16) -> Vec<u8> {
    let code = vec![
        first(0, 0, 9),
        repeat(locks - 1),
        child(1, 0, 1, 6),
        release(0),
        move_node(0, 1),
        end(),
        get(2, 0, 0),
        emit(2),
        release(0),
        finish(),
    ];
    container(1, &code)
}

/// The code with `set` up to 1,022 instructions, and then the node let go and the return.
fn filled_up(mut code: Vec<[u8; 8]>) -> Vec<u8> {
    code.resize(1_022, set(3, 7));
    code.push(release(0));
    code.push(finish());
    container(1, &code)
}

/// 1,024 instructions without a loop: arithmetic with an else, jumps, and uses of a held node.
pub fn flat() -> Vec<u8> {
    let mut code = vec![first(0, 0, 1_023)];
    while code.len() + 8 <= 1_022 {
        let next = code.len();
        code.push(arithmetic(3, 2, 2, 3, next + 2));
        code.push(get(4, 0, 1));
        code.push(jump_if_less(2, 4, next + 5));
        code.push(arithmetic(5, 4, 4, 2, next + 6));
        code.push(put(0, 1, 4));
        code.push(set(3, 7));
        code.push(arithmetic(6, 5, 4, 3, next + 8));
        code.push(put(0, 2, 5));
    }
    filled_up(code)
}

/// 1,024 instructions in loops four deep.
pub fn nested() -> Vec<u8> {
    let mut code = vec![first(0, 0, 1_023)];
    while code.len() + 13 <= 1_022 {
        code.extend([repeat(2), repeat(2), repeat(2), repeat(2)]);
        let next = code.len();
        code.push(arithmetic(3, 2, 2, 3, next + 2));
        code.push(get(4, 0, 1));
        code.push(jump_if_less(2, 4, next + 5));
        code.push(arithmetic(5, 4, 4, 2, next + 5));
        code.push(put(0, 1, 4));
        code.extend([end(), end(), end(), end()]);
    }
    filled_up(code)
}

/// A code that is refused at its last position: a node is still held at the return.
pub fn refused() -> Vec<u8> {
    let mut bytes = flat();
    let last_but_one = bytes.len() - 16;
    bytes[last_but_one..last_but_one + 8].copy_from_slice(&set(3, 7));
    bytes
}

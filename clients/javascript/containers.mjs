// Containers of procedures, as `docs/use/formats.md` has them.

// The texts of the instructions by their opcodes, with the operands x, y, z and w.
const arithmetic = (word) => (x, y, z, w) => `${word} v${x} v${y} v${z} else L${w}`;
const INSTRUCTIONS = {
  1: (x, y, z, w) => `set v${x} ${w}`,
  2: (x, y) => `copy v${x} v${y}`,
  3: arithmetic("add"),
  4: arithmetic("sub"),
  5: arithmetic("mul"),
  6: arithmetic("div"),
  7: (x, y, z, w) => `jmp L${w}`,
  8: (x, y, z, w) => `jlt v${x} v${y} L${w}`,
  9: (x, y, z, w) => `jeq v${x} v${y} L${w}`,
  10: (x, y, z, w) => `rep ${w}`,
  11: () => "end",
  12: (x, y, z, w) => `first n${x} v${y} else L${w}`,
  13: (x, y, z, w) => `child n${x} n${y} v${z} else L${w}`,
  14: (x, y) => `move n${x} n${y}`,
  15: (x) => `rel n${x}`,
  16: (x, y, z) => `get v${x} n${y} ${z}`,
  17: (x, y, z) => `put n${x} ${y} v${z}`,
  18: (x, y) => `kids v${x} n${y}`,
  19: (x) => `emit v${x}`,
  20: () => "ret",
  21: (x, y, z, w) => `repv v${x} ${w}`,
};
const TARGETED = new Set([3, 4, 5, 6, 7, 8, 9, 12, 13]);
const HEADS = { TLP1: [], TLP2: ["version 2"] };

/** The assembler text of a container, whose targets are positions of its instructions. What has another form is a `RangeError`. */
export function assemblerText(container) {
  const head = HEADS[container.toString("latin1", 0, 4)];
  if (!head || container.length < 8 || container.length % 8 !== 0) throw new RangeError("no container of a procedure");
  const [lines, targets] = [[], new Set()];
  for (let at = 8; at < container.length; at += 8) {
    const [opcode, x, y, z] = container.subarray(at, at + 4);
    const w = container.readInt32BE(at + 4);
    if (!INSTRUCTIONS[opcode]) throw new RangeError("no container of a procedure");
    if (TARGETED.has(opcode)) targets.add(w);
    lines.push(INSTRUCTIONS[opcode](x, y, z, w));
  }
  const labelled = [...lines, ""].flatMap((line, position) => (targets.has(position) ? [`L${position}:`, line] : [line]));
  return [...head, `arity ${container[4]}`, ...labelled].join("\n");
}

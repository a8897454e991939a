// run.mjs MODULE BLOCKS RESULTS NAME..: calls each function of a module for wasm64 with each block of the file BLOCKS, and
// writes the blocks afterwards to RESULTS. After a trap, a block consists of bytes EE.
import { readFileSync, writeFileSync } from "node:fs";

const BLOCK = 256;
const STATIC = 4096n;
const PLACE = 65536;
const [module, given, results, ...names] = process.argv.slice(2);

const memory = new WebAssembly.Memory({ initial: 4, index: "i64" });
const global = (value, mutable) => new WebAssembly.Global({ value: "i64", mutable }, value);
const bytes = () => new Uint8Array(memory.buffer);
const at = (address, count) => bytes().subarray(Number(address), Number(address) + Number(count));

function compared(one, two, count) {
  return Buffer.compare(at(one, count), at(two, count));
}

function copied(to, from, count) {
  bytes().copyWithin(Number(to), Number(from), Number(from) + Number(count));
  return to;
}

const env = {
  memory,
  __memory_base: global(STATIC, false),
  __table_base: global(0n, false),
  __stack_pointer: global(BigInt(PLACE - 1024), true),
  memcmp: compared,
  bcmp: compared,
  memcpy: copied,
  memmove: copied,
  memset: (to, value, count) => (at(to, count).fill(value), to),
};
const { instance } = await WebAssembly.instantiate(readFileSync(module), { env });
instance.exports.__wasm_apply_data_relocs?.();

const blocks = readFileSync(given);
const after = [];
for (const name of names) {
  for (let start = 0; start < blocks.length; start += BLOCK) {
    const block = at(PLACE, BLOCK);
    block.set(blocks.subarray(start, start + BLOCK));
    try {
      instance.exports[name](BigInt(PLACE));
    } catch (error) {
      if (!(error instanceof WebAssembly.RuntimeError)) throw error;
      env.__stack_pointer.value = BigInt(PLACE - 1024);
      block.fill(0xee);
    }
    after.push(Buffer.from(block));
  }
}
writeFileSync(results, Buffer.concat(after));

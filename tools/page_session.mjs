// Plays a session on the machine of the page: standard input in, standard output out, and the program's status.
// Usage: node --experimental-wasm-memory64 page_session.mjs MACHINE.wasm < SESSION
import { readFileSync } from "node:fs";

const input = readFileSync(0);
let at = 0, memory;
const page = {
  read(to, most) {
    const count = Math.min(Number(most), input.length - at);
    new Uint8Array(memory.buffer).set(input.subarray(at, at + count), Number(to));
    at += count;
    return BigInt(count);
  },
  write(from, count) {
    process.stdout.write(new Uint8Array(memory.buffer, Number(from), Number(count)).slice());
    return count;
  },
};
const { instance } = await WebAssembly.instantiate(readFileSync(process.argv[2]), { page });
memory = instance.exports.memory;
process.exitCode = instance.exports.main(0, 0n);

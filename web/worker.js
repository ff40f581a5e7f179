"use strict";
// Runs the machine: one message in, one run, one message out. Each run has a new instance, so nothing is left from the one before.
let machine;

const SAY_EVERY = 100; // milliseconds

function run(id, input) {
  const parts = [];
  let length = 0, at = 0, said = performance.now(), memory;
  const page = {
    read(to, most) {
      const count = Math.min(Number(most), input.length - at);
      new Uint8Array(memory.buffer).set(input.subarray(at, at + count), Number(to));
      at += count;
      return BigInt(count);
    },
    write(from, count) {
      parts.push(new Uint8Array(memory.buffer, Number(from), Number(count)).slice());
      length += Number(count);
      if (performance.now() - said > SAY_EVERY) {
        said = performance.now();
        const lines = parts.reduce((sum, part) => sum + (part[part.length - 1] === 10 ? 1 : 0), 0);
        postMessage({ id, lines });
      }
      return count;
    },
  };
  const { exports } = new WebAssembly.Instance(machine, { page });
  memory = exports.memory;
  const began = performance.now();
  const status = exports.main(0, 0n);
  const output = new Uint8Array(length);
  let place = 0;
  for (const part of parts) {
    output.set(part, place);
    place += part.length;
  }
  postMessage({ id, status, output, took: performance.now() - began, memory: memory.buffer.byteLength }, [output.buffer]);
}

onmessage = ({ data }) => {
  if (data.machine) {
    machine = data.machine;
    return;
  }
  try {
    run(data.id, data.input);
  } catch (error) {
    postMessage({ id: data.id, error: String(error) });
  }
};

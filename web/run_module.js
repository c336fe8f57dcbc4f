// Runs motesim.wasm, in a page or in node.
'use strict';

// Simulates a scenario, given as bytes, in a new instance of the module (a WebAssembly.Module). `write(stream, bytes)`
// gets each piece that is written: of the report (stream 1), or of the line of an error (stream 2). An exception of
// `write` ends the run. Returns the exit status, and the bytes of memory that the instance had at the end. Throws
// `StackLimit` if the run needs more stack than it has here.
function runModule(module, scenario, write) {
  let read = 0;
  const bytes = (place, length) => new Uint8Array(instance.exports.memory.buffer, Number(place), Number(length));
  const host = {
    read(place, room) {
      const piece = scenario.subarray(read, read + Number(room));
      bytes(place, piece.length).set(piece);
      read += piece.length;
      return BigInt(piece.length);
    },
    write(stream, place, length) {
      write(stream, bytes(place, length).slice());
    },
  };
  const instance = new WebAssembly.Instance(module, {host});
  try {
    const status = instance.exports.run();
    return {status, memory: instance.exports.memory.buffer.byteLength};
  } catch (fault) {
    // (the module's own stack ends at the address 0, so the next access below it is out of bounds)
    const isBelow = fault instanceof WebAssembly.RuntimeError && /out of bounds/.test(fault.message);
    throw isBelow || fault instanceof RangeError ? new StackLimit() : fault;
  }
}

class StackLimit extends Error {
  constructor() { super('the run needs more stack than WebAssembly has here'); }
}

if (typeof exports === 'object') Object.assign(exports, {runModule, StackLimit});

// Runs the programs of this folder for a tool, one run after another, until standard input ends: node web/worker.js
//
// A run is a length in 4 bytes, the lowest first; a head in JSON of this length, with the program's name, its words, and
// the names and lengths of the files that come with it; and the bytes of these files. Standard input is `/dev/stdin`.
// The answer has pieces: a byte that says of which stream, 1 or 2, the length of the piece in 4 bytes, and its bytes.
// Last is the byte 0, and the exit status in 4 bytes.
'use strict';
const fs = require('fs');
const v8 = require('v8');
const {readBytes, runProgram, writeAll} = require(__dirname + '/in_node.js');

// Most runs end before a function has earned the time of the optimizing compiler. (If node doesn't know this name, it
// goes on as before.)
v8.setFlagsFromString('--wasm-tiering-budget=50000000');

const END = 0, ANSWER = 1;

// The next bytes of standard input. At its end there is nobody for whom anything could run.
function take(length) {
  const bytes = Buffer.alloc(length);
  for (let at = 0, more; at < length; at += more) {
    more = fs.readSync(0, bytes.subarray(at));
    if (!more) process.exit();
  }
  return bytes;
}

const takeNumber = () => take(4).readUInt32LE();

function put(kind, number, bytes = Buffer.alloc(0)) {
  const head = Buffer.alloc(5);
  head.writeUInt8(kind);
  head.writeUInt32LE(number, 1);
  writeAll(ANSWER, Buffer.concat([head, bytes]));
}

for (;;) {
  const {program, words, files} = JSON.parse(take(takeNumber()));
  const given = new Map(files.map(([name, length]) => [name, take(length)]));
  const read = (name = '/dev/stdin') => given.get(name) ?? readBytes(name);
  put(END, runProgram(program, words, read, (stream, bytes) => put(stream, bytes.length, bytes)));
}

// The module's limits: a stack that ends is said, and is no trap.
import assert from 'node:assert/strict';
import {createRequire} from 'node:module';
import {test} from 'node:test';

const {StackLimit, runModule} = createRequire(import.meta.url)('../../../web/run_module.js');

/** A module with a memory of a page, whose function `run` has a body. @param {number[]} body */
const moduleOf = body => new WebAssembly.Module(Uint8Array.from([0, 0x61, 0x73, 0x6d, 1, 0, 0, 0,
  1, 5, 1, 0x60, 0, 1, 0x7f, 3, 2, 1, 0, 5, 3, 1, 0, 1,
  7, 16, 2, 6, ...Buffer.from('memory'), 2, 0, 3, ...Buffer.from('run'), 0, 0,
  10, body.length + 4, 1, body.length + 2, 0, ...body, 0x0b]));
const run = body => runModule(moduleOf(body), new Uint8Array(), () => {});

test('a module that calls itself for ever, and one below its own stack, meet the limit of the stack', () => {
  assert.throws(() => run([0x10, 0]), StackLimit);
  assert.throws(() => run([0x41, 0x78, 0x28, 2, 0]), StackLimit);
});

test('another trap stays what it is', () => {
  assert.equal(run([0x41, 7]).status, 7);
  assert.throws(() => run([0]), WebAssembly.RuntimeError);
});

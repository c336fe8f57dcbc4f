// Runs the modules of this folder in node, as programs with words.
'use strict';
const fs = require('fs');
const {parseArgs} = require('util');
const {StackLimit, runModule} = require(__dirname + '/run_module.js');

const MISUSED = 2, ENDED_BY_PIPE = 141;
// The status of each program if it has no result.
const FAILED = {motesim: 1, motecheck: 2};
// (a module refuses an input that is longer)
const LONGEST = 1 << 20;
const ZERO = Uint8Array.of(0);
// The options of motecheck that have a value.
const WITH_VALUE = ['fault', 'faults', 'late', 'at-most', 'runs', 'workers'];
const VALUED = Object.fromEntries(WITH_VALUE.map(it => [it, {type: 'string'}]));

const MORE = '\n\nFor more information, try \'--help\'.';
const HELP = ['--help', '-h', '--version', '-V'];

// Ends a program before its module runs, with a status and a line.
class Refusal extends Error {
  constructor(line, status) {
    super(line);
    this.status = status;
  }
}

const misused = line => new Refusal('error: ' + line, MISUSED);

const EMPTY = ZERO.subarray(1);
const FILES = "motecheck takes <SCENARIO> and <CLAIMS>, or '--report' and <SCENARIO>";

// The input of the module of motecheck, which reads no files.
const checkedInput = (options, claims, scenario) =>
  Buffer.concat([Buffer.from(['motecheck', ...options].join('\n')), ZERO, claims, ZERO, scenario]);

// Each program by its name: the input of its module, from its words and the files that `read` reads.
const INPUTS = {
  motesim(words, read) {
    const given = words[0] === '--' ? words.slice(1) : words;
    if (given.length > 1 || (given === words && words[0]?.startsWith('-') && words[0] !== '-')) {
      throw misused('motesim.wasm takes a file, and no options: ./run and a compiled motesim have them');
    }
    return inputOf('motesim', read, given[0]);
  },
  motecheck(words, read) {
    const {options, files, faults} = wordsOf(words);
    if (options.some(it => HELP.includes(it))) return checkedInput(options, EMPTY, EMPTY);
    if (files.length !== (options.includes('--report') ? 1 : 2)) throw misused(FILES + MORE);
    const scenario = inputOf('motecheck', read, files[0]);
    const claims = files.length > 1 ? inputOf('motecheck', read, files[1], ' of the claims') : EMPTY;
    const lines = faults.flatMap(it => inputOf('motecheck', read, it, ' of the faults').toString().split('\n'));
    return checkedInput([...options, ...lines.map(it => `--fault=${it}`)], claims, scenario);
  },
};

// The bytes of a file, or an error that says of what, if not of the scenario.
function inputOf(name, read, file, of = '') {
  try {
    return read(file);
  } catch {
    throw new Refusal(name + ': read fault' + of, FAILED[name]);
  }
}

// The words of motecheck that are options, with their values; the names of its files, and those of its files of faults.
function wordsOf(words) {
  const {tokens} = parseArgs({args: words, options: VALUED, allowPositionals: true, strict: false, tokens: true});
  const optionOf = it => it.value === undefined ? it.rawName : `${it.rawName}=${it.value}`;
  const isOfFaults = it => it.kind === 'option' && it.name === 'faults' && it.value !== undefined;
  return {
    options: tokens.filter(it => it.kind === 'option' && !isOfFaults(it)).map(optionOf),
    files: tokens.filter(it => it.kind === 'positional').map(it => it.value),
    faults: tokens.filter(isOfFaults).map(it => it.value),
  };
}

// The modules that were compiled.
const modules = {};

function moduleOf(name) {
  return modules[name] ??= new WebAssembly.Module(fs.readFileSync(`${__dirname}/${name}.wasm`));
}

// Runs the program of this name with these words, and returns its status. `read(file)` returns the bytes of a file, or
// of standard input; `write(stream, bytes)` gets what the program writes. What `write` throws ends the run.
function runProgram(name, words, read, write) {
  const end = (status, line) => {
    write(2, Buffer.from(line + '\n'));
    return status;
  };
  try {
    return runModule(moduleOf(name), INPUTS[name](words, read), write).status;
  } catch (fault) {
    if (fault instanceof Refusal) return end(fault.status, fault.message);
    if (fault instanceof StackLimit) return end(FAILED[name], `${name}: stack limit: ${fault.message}`);
    if (fault.syscall === 'write') throw fault;
    return end(FAILED[name], `${name}: node can't run the module: ${fault}`);
  }
}

// The bytes of a file, or of standard input, up to the first chunk that makes them too long.
function readBytes(file) {
  const pieces = [], opened = file === undefined ? 0 : fs.openSync(file);
  for (let length = 0, more = 1; more && length <= LONGEST; length += more) {
    const piece = new Uint8Array(1 << 16);
    more = fs.readSync(opened, piece);
    pieces.push(piece.subarray(0, more));
  }
  return Buffer.concat(pieces);
}

function writeAll(stream, bytes) {
  while (bytes.length) {
    try {
      bytes = bytes.subarray(fs.writeSync(stream, bytes));
    } catch (fault) {
      // (a pipe that is full, and doesn't wait)
      if (fault.code !== 'EAGAIN') throw fault;
    }
  }
}

// Runs the program of this name with the words, files and streams of this process.
function main(name) {
  try {
    process.exitCode = runProgram(name, process.argv.slice(2), readBytes, writeAll);
  } catch (fault) {
    if (fault.code === 'EPIPE') process.exit(ENDED_BY_PIPE);
    fs.writeSync(2, `${name}: write fault\n`);
    process.exit(FAILED[name]);
  }
}

Object.assign(exports, {main, readBytes, runProgram, writeAll});

// The worker of the page: gives a module one input at a time, and reads a report into columns. The script
// web/run_module.js is in front of this one.
import {columnsOf} from './report.js';

/** The longest report that a page shows, in bytes. */
const MOST_REPORT = 64 << 20;

class TooLong extends Error {}

/** The answer to an input: columns, or the text that was written; the line of an error; or a limit. */
function answerTo(module, text, isReport) {
  const streams = {1: /** @type {Uint8Array[]} */ ([]), 2: /** @type {Uint8Array[]} */ ([])},
    begin = performance.now();
  let length = 0;
  const write = (stream, bytes) => {
    length += bytes.length;
    if (length > MOST_REPORT) throw new TooLong();
    streams[stream].push(bytes);
  };
  try {
    const {status} = runModule(module, new TextEncoder().encode(text), write), took = performance.now() - begin;
    const line = textOf(streams[2]).trimEnd();
    if (line) return {line};
    return isReport ? {...columnsOf(textOf(streams[1])), took} : {answer: textOf(streams[1]), status, took};
  } catch (fault) {
    if (fault instanceof TooLong) return {limit: 'The report is longer than 64 megabytes, so the run was stopped.'};
    if (fault instanceof StackLimit) return {limit: `The run was stopped: ${fault.message}.`};
    return {limit: `The run failed in this browser: ${fault instanceof Error ? fault.message : fault}`};
  }
}

function textOf(parts) {
  const decoder = new TextDecoder();
  return parts.map(it => decoder.decode(it, {stream: true})).join('') + decoder.decode();
}

self.onmessage = ({data: {module, text, isReport}}) => {
  const answer = /** @type {any} */ (answerTo(module, text, isReport));
  /** @type {any} */ (self).postMessage(answer, Object.values(answer.columns || {}).map(it => it.buffer));
};

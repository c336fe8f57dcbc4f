// What browsers have, and the types of tsc don't know yet; and what the pages add to their window.
interface Window { motesim: any }
declare const OffscreenCanvas: any, CompressionStream: any, DecompressionStream: any;
declare class StackLimit extends Error {}
declare function runModule(module: any, input: Uint8Array, write: (stream: number, bytes: Uint8Array) => void): any;

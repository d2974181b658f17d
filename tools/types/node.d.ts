// Node's own names, for which Debian has no types.
declare module "node:assert";
declare module "node:buffer";
declare module "node:child_process";
declare module "node:crypto";
declare module "node:fs";
declare module "node:module";
declare module "node:os";
declare module "node:path";
declare module "node:perf_hooks";
declare module "node:timers/promises";
declare module "node:url";
declare module "node:vm";
declare module "*.node";
interface Buffer extends Uint8Array {
  [name: string]: any;
}
declare const Buffer: any;
declare const process: any;

// What the program uses of Node's modules, since Debian has no types of them.
declare module 'node:fs' {
  export function readFileSync(file: string, encoding: 'utf8'): string;
}
declare module 'node:test' {
  export function test(name: string, run: () => void): void;
}
declare module 'node:assert/strict' {
  export function deepEqual(actual: unknown, expected: unknown, message?: string): void;
  export function ok(value: unknown, message?: string): asserts value;
  export function throws(run: () => unknown, message?: string): void;
}

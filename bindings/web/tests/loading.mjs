// How a program gets the module without naming it: in Node by `import` and `require`, in a browser, and in what bundlers make.
// BCS_WEB names the folder that bindings/web/build.sh made.
import assert from 'node:assert/strict';
import { execFileSync } from 'node:child_process';
import { cpSync, mkdtempSync, readdirSync, readFileSync, rmSync, writeFileSync } from 'node:fs';
import { createServer } from 'node:http';
import { createRequire } from 'node:module';
import { tmpdir } from 'node:os';
import { join, resolve } from 'node:path';
import test, { after, before } from 'node:test';
import { pathToFileURL } from 'node:url';
import { Chromium } from './chromium.mjs';

const web = resolve(process.env.BCS_WEB);
const FILES = readdirSync(web).filter((name) => /\.[cm]js$|^bcs\.wasm$/.test(name));
const require = createRequire(import.meta.url);
const TYPES = { html: 'text/html', mjs: 'text/javascript', js: 'text/javascript', wasm: 'application/octet-stream' };
const CALLS = `
  const registry = (await load()).registry('{}');
  globalThis.found = Array.from(registry.encode('"U16"', 513)).join();`;
let [room, server, origin, chromium] = [];

/** Serves the folder's files, pages under /page, and what esbuild makes. A page may have a policy. */
function answered(request, response) {
  const { pathname, searchParams } = new URL(request.url, 'http://localhost');
  const name = pathname.slice(1);
  const headers = { 'content-type': TYPES[name.split('.').at(-1)] ?? 'text/html' };
  if (searchParams.has('policy')) headers['content-security-policy'] = searchParams.get('policy');
  try {
    const content = name.startsWith('page') ? pageOf(searchParams.get('script')) : readFileSync(join(room, name));
    response.writeHead(200, headers).end(content);
  } catch {
    response.writeHead(404).end();
  }
}

const pageOf = (script) => `<!doctype html><script type="module" src="/${script}"></script>`;

before(async () => {
  room = mkdtempSync(join(tmpdir(), 'bcs-loading-'));
  for (const name of FILES) cpSync(join(web, name), join(room, name));
  const start = "import { load } from './bcs.mjs';";
  writeFileSync(join(room, 'start.mjs'), `${start}\ntry {${CALLS}\n} catch (error) { globalThis.found = error.message; }`);
  server = createServer(answered);
  await new Promise((done) => server.listen(0, '127.0.0.1', done));
  origin = `http://127.0.0.1:${server.address().port}`;
  chromium = await Chromium.start();
});

after(async () => {
  await chromium.end();
  await new Promise((done) => server.close(done));
  rmSync(room, { recursive: true });
});

/** What a page found, or the message of the error. */
async function foundBy(script, policy) {
  const page = await chromium.page();
  const words = new URLSearchParams(policy === undefined ? { script } : { script, policy });
  await page.open(`${origin}/page?${words}`);
  for (let i = 0; i < 1200; i++) {
    const found = await page.ask('globalThis.found');
    if (found !== undefined) return found;
    await new Promise((done) => setTimeout(done, 50));
  }
  throw new Error(`nothing is found: ${page.complaints}`);
}

test('import in Node', async () => {
  const { load } = await import(pathToFileURL(join(web, 'bcs.mjs')));
  const bcs = await load();
  assert.deepEqual([...bcs.registry('{}').encode('"U16"', 513)], [1, 2]);
});

test('require in Node, with the same calls', async () => {
  const [required, imported] = [require(join(web, 'bcs.cjs')), await import(pathToFileURL(join(web, 'bcs.mjs')))];
  assert.deepEqual(Object.keys(required).sort(), Object.keys(imported).sort());
  const registry = (await required.load()).registry('{}');
  assert.deepEqual([...registry.encode('"U16"', 513)], [1, 2]);
  assert.throws(() => registry.decode('"U16"', [1]), (error) => error instanceof required.BcsError && error.place === 1);
  assert.equal(readFileSync(join(web, 'bcs.d.cts'), 'utf8'), readFileSync(join(web, 'bcs.d.mts'), 'utf8'));
});

test('a missing module is an error that names it', async () => {
  const alone = mkdtempSync(join(tmpdir(), 'bcs-alone-'));
  cpSync(join(web, 'bcs.cjs'), join(alone, 'bcs.cjs'));
  await assert.rejects(require(join(alone, 'bcs.cjs')).load(), /bcs\.wasm/);
  rmSync(alone, { recursive: true });
});

test('a page, by fetch, whatever type the server names', async () => {
  assert.equal(await foundBy('start.mjs'), '1,2');
});

test('a page whose policy forbids WebAssembly gets a message on what the policy needs', async () => {
  const allowed = "default-src 'self'; script-src 'self' 'wasm-unsafe-eval'";
  assert.equal(await foundBy('start.mjs', allowed), '1,2');
  assert.match(await foundBy('start.mjs', "default-src 'self'; script-src 'self'"), /script-src needs 'wasm-unsafe-eval'/);
});

test('a page without the module gets a message on where it was looked for', async () => {
  writeFileSync(join(room, 'far.mjs'), readFileSync(join(room, 'start.mjs'), 'utf8').replace('./bcs.mjs', './far/bcs.mjs'));
  for (const name of FILES.filter((name) => name.endsWith('.mjs'))) cpSync(join(room, name), join(room, 'far', name));
  assert.match(await foundBy('far.mjs'), /no module at http:.*\/far\/bcs\.wasm: status 404; pass the module to load\(\)/);
});

test('a bundle of esbuild, for pages and for Node', async () => {
  const bundle = (out) => execFileSync('esbuild', [join(room, 'start.mjs'), '--bundle', '--format=esm', '--log-level=error', `--outfile=${join(room, out)}`]);
  bundle('bundled.mjs');
  assert.equal(await foundBy('bundled.mjs'), '1,2');
  await import(pathToFileURL(join(room, 'bundled.mjs')));
  assert.equal(globalThis.found, '1,2');
});

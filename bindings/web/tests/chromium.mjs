// Headless Chromium over its DevTools pipe: a page is opened from the disk, and asked and handled as a reader would.
import { spawn } from 'node:child_process';
import { mkdtempSync, rmSync } from 'node:fs';
import { tmpdir } from 'node:os';
import { join } from 'node:path';

const PROGRAMS = ['chromium-headless-shell', 'chromium'];
const KEYS = { Tab: 9, End: 35, Home: 36, ArrowRight: 39, ArrowDown: 40, Delete: 46 };
const FLAGS = ['--headless', '--no-sandbox', '--disable-gpu', '--hide-scrollbars', '--remote-debugging-pipe', '--mute-audio'];

export class Chromium {
  #waiting = new Map();
  #listeners = [];
  #number = 0;
  #rest = '';

  static async start(program = process.env.CHROMIUM ?? PROGRAMS[0]) {
    const chromium = new Chromium();
    chromium.folder = mkdtempSync(join(tmpdir(), 'bcs-page-'));
    const flags = [...FLAGS, `--user-data-dir=${chromium.folder}`, 'about:blank'];
    chromium.process = spawn(program, flags, { stdio: ['ignore', 'ignore', 'ignore', 'pipe', 'pipe'] });
    chromium.process.stdio[4].setEncoding('utf8');
    chromium.process.stdio[4].on('data', (text) => chromium.#read(text));
    return chromium;
  }

  /** A fresh page, with its size and colours, before anything is loaded. */
  async page({ width = 1600, height = 1200, scheme = 'light' } = {}) {
    const { targetId } = await this.send('Target.createTarget', { url: 'about:blank' });
    const { sessionId } = await this.send('Target.attachToTarget', { targetId, flatten: true });
    const page = new PageHandle(this, sessionId, targetId);
    await page.send('Page.enable');
    await page.send('Runtime.enable');
    await page.send('Network.enable');
    await page.send('Log.enable');
    await page.send('Emulation.setDeviceMetricsOverride', { width, height, deviceScaleFactor: 1, mobile: width < 600 });
    await page.send('Emulation.setEmulatedMedia', { features: [{ name: 'prefers-color-scheme', value: scheme }] });
    return page;
  }

  send(method, params = {}, sessionId) {
    const id = ++this.#number;
    this.process.stdio[3].write(JSON.stringify({ id, method, params, sessionId }) + '\0');
    return new Promise((resolve, reject) => this.#waiting.set(id, { resolve, reject, method }));
  }

  listen(listener) {
    this.#listeners.push(listener);
  }

  #read(text) {
    const messages = (this.#rest + text).split('\0');
    this.#rest = messages.pop();
    for (const message of messages.map((it) => JSON.parse(it))) this.#take(message);
  }

  #take(message) {
    const waiting = this.#waiting.get(message.id);
    if (waiting === undefined) return this.#listeners.forEach((listener) => listener(message));
    this.#waiting.delete(message.id);
    if (message.error) waiting.reject(new Error(`${waiting.method}: ${message.error.message}`));
    else waiting.resolve(message.result);
  }

  async end() {
    const ended = new Promise((resolve) => this.process.once('exit', resolve));
    this.send('Browser.close').catch(() => {});
    await ended;
    rmSync(this.folder, { recursive: true, force: true, maxRetries: 5 });
  }
}

/** Where an element is, near its start, once it is visible. */
function placeOf(expression) {
  return `(() => {
    const element = ${expression};
    element.scrollIntoView({ block: 'nearest' });
    const { x, y, width, height } = element.getBoundingClientRect();
    return { x: x + Math.min(width / 2, 60), y: y + Math.min(height / 2, 8) };
  })()`;
}

/** One page: what it requests and what it complains of is noted from the start. */
class PageHandle {
  complaints = [];
  #requested = new Map();

  constructor(chromium, session, target) {
    this.chromium = chromium;
    this.session = session;
    this.target = target;
    chromium.listen((message) => this.#note(message));
  }

  #note({ method, params, sessionId }) {
    if (sessionId !== this.session) return;
    if (method === 'Network.requestWillBeSent') this.#requested.set(params.requestId, params.request.url);
    // (what the policy blocks is reported, but never sent)
    if (method === 'Network.loadingFailed' && params.blockedReason) this.#requested.delete(params.requestId);
    if (method === 'Runtime.exceptionThrown') this.complaints.push(params.exceptionDetails.exception?.description);
    if (method === 'Log.entryAdded' && params.entry.level === 'error') this.complaints.push(params.entry.text);
  }

  get requests() {
    return [...this.#requested.values()];
  }

  send(method, params) {
    return this.chromium.send(method, params, this.session);
  }

  async open(address) {
    await this.send('Page.navigate', { url: address });
  }

  /** The value of an expression, which may be a promise. */
  async ask(expression) {
    const asked = { expression, awaitPromise: true, returnByValue: true };
    const { result, exceptionDetails } = await this.send('Runtime.evaluate', asked);
    if (exceptionDetails) throw new Error(exceptionDetails.exception?.description ?? exceptionDetails.text);
    return result.value;
  }

  /** Waits until an expression is true. */
  async until(expression, seconds = 60) {
    const end = Date.now() + 1000 * seconds;
    while (Date.now() < end) {
      if (await this.ask(`Boolean(${expression})`).catch(() => false)) return;
      await new Promise((resolve) => setTimeout(resolve, 20));
    }
    const verdict = await this.ask("document.getElementById('verdict')?.textContent");
    throw new Error(`it never came: ${expression}; the verdict: ${verdict}`);
  }

  /** Presses a key, such as `Tab` or `ArrowDown`. */
  async press(key) {
    const event = { key, code: key, windowsVirtualKeyCode: KEYS[key] };
    await this.send('Input.dispatchKeyEvent', { type: 'rawKeyDown', ...event });
    await this.send('Input.dispatchKeyEvent', { type: 'keyUp', ...event });
  }

  /** Selects all of what has the focus, as by Control and A. */
  async selectAll() {
    const event = { key: 'a', code: 'KeyA', windowsVirtualKeyCode: 65, modifiers: 2 };
    await this.send('Input.dispatchKeyEvent', { type: 'rawKeyDown', commands: ['selectAll'], ...event });
    await this.send('Input.dispatchKeyEvent', { type: 'keyUp', ...event });
  }

  /** Types as from a keyboard, into what has the focus. */
  async type(text) {
    await this.send('Input.insertText', { text });
  }

  /** Moves the pointer onto an element, until what should come of it is true. */
  async point(expression, wanted) {
    const end = Date.now() + 10_000;
    for (;;) {
      await this.send('Input.dispatchMouseEvent', { type: 'mouseMoved', ...(await this.ask(placeOf(expression))) });
      if (await this.ask(`Boolean(${wanted})`)) return;
      if (Date.now() > end) throw new Error(`pointing at ${expression} never made true: ${wanted}`);
      await this.send('Input.dispatchMouseEvent', { type: 'mouseMoved', x: 1, y: 1 });
    }
  }

  async picture({ isWhole = true } = {}) {
    const { data } = await this.send('Page.captureScreenshot', { format: 'png', captureBeyondViewport: isWhole });
    return Buffer.from(data, 'base64');
  }

  async close() {
    await this.chromium.send('Target.closeTarget', { targetId: this.target });
  }
}

// The page's questions to the worker. One is asked at a time; of those of one kind that wait, only the newest is asked.
const MOST_SECONDS = 20;

export class Questions {
  #source;
  #module;
  #worker;
  #waiting = new Map();
  #running;
  #number = 0;

  /** `whenBroken` is called with the reason if there will be no answers. */
  constructor(source, module, whenBroken) {
    this.#source = scriptAddress(URL.createObjectURL(new Blob([source], { type: 'text/javascript' })));
    this.#module = module;
    this.whenBroken = whenBroken;
    this.#start();
  }

  /** Resolves to `{ answer }` or `{ refusal }`, or to `undefined` where a newer question of the kind took its place. */
  ask(question, asked) {
    return new Promise((resolve) => {
      this.#waiting.get(question)?.resolve(undefined);
      this.#waiting.set(question, { question, asked, resolve });
      this.#next();
    });
  }

  #start() {
    this.#worker = new Worker(this.#source);
    this.#worker.onmessage = ({ data }) => this.#end(data);
    this.#worker.onerror = (event) => this.#end({ refusal: { kind: 'page', detail: event.message } });
    const resolve = ({ refusal }) => refusal && this.whenBroken(refusal.detail);
    this.#send({ question: 'start', asked: { module: this.#module }, resolve });
  }

  #next() {
    if (this.#running) return;
    const [next] = this.#waiting.values();
    if (next === undefined) return;
    this.#waiting.delete(next.question);
    this.#send(next);
  }

  #send(job) {
    const id = ++this.#number;
    const timer = setTimeout(() => this.#breakOff(), MOST_SECONDS * 1000);
    this.#running = { ...job, id, timer };
    this.#worker.postMessage({ id, question: job.question, ...job.asked });
  }

  #end({ answer, refusal }) {
    const { resolve, timer } = this.#running;
    clearTimeout(timer);
    this.#running = undefined;
    resolve({ answer, refusal });
    this.#next();
  }

  #breakOff() {
    this.#worker.terminate();
    this.#running.resolve({ refusal: { kind: 'page', detail: `no answer within ${MOST_SECONDS} seconds: broken off` } });
    this.#running = undefined;
    this.#start();
  }
}

/** The page's policy lets no text become a script, but for the address of its own worker, by this name. */
function scriptAddress(address) {
  return globalThis.trustedTypes?.createPolicy('bcs-worker', { createScriptURL: (it) => it }).createScriptURL(address) ?? address;
}

// What the command `bcs-types` reads and writes.
import { close, open, read } from 'node:fs';
import { promisify } from 'node:util';

const MOST_BYTES = 1 << 28;
const BLOCK = 1 << 16;
const CAUSES = {
  ENOENT: ': No such file or directory',
  EACCES: ': Permission denied',
  ENOTDIR: ': Not a directory',
  ELOOP: ': Too many levels of symbolic links',
  ENAMETOOLONG: ': File name too long',
  EINVAL: ': Invalid argument',
};

/** What the machine failed at: `open`, `read`, `write` or `too large`; and of which file or stream. */
export class Fault extends Error {
  constructor(what, place) {
    super(what);
    this.place = place;
  }
}

/** The content of a file in blocks, of at most 268435456 bytes. */
async function contentOf(blocks, place) {
  const [parts, fault] = [[], (what) => new Fault(what, place)];
  let size = 0;
  try {
    for await (const block of blocks) {
      size += block.length;
      if (size > MOST_BYTES) throw fault('too large');
      parts.push(block);
    }
  } catch (error) {
    throw error instanceof Fault ? error : fault('read');
  }
  return Buffer.concat(parts);
}

async function* blocksOf(file) {
  for (;;) {
    const { bytesRead, buffer } = await promisify(read)(file, Buffer.alloc(BLOCK), 0, BLOCK, null);
    if (bytesRead === 0) return;
    yield buffer.subarray(0, bytesRead);
  }
}

/** A name as between the quotes of a JSON string, in ASCII, so that none of its characters moves a terminal. */
function shown(name) {
  const escaped = (unit) => `\\u${unit.charCodeAt(0).toString(16).padStart(4, '0')}`;
  return name.replace(/["\\]/g, '\\$&').replace(/[^ -~]/g, escaped);
}

function write(bytes) {
  return new Promise((resolve, reject) => {
    const fail = () => reject(new Fault('write', 'in the standard output'));
    process.stdout.once('error', fail);
    process.stdout.write(bytes, (error) => (error ? fail() : resolve()));
  });
}

/** Files and streams of this machine. */
export const system = {
  /** The content of a file. */
  async read(name) {
    const place = `in the file ${shown(name)}`;
    const file = await promisify(open)(name, 'r').catch((error) => {
      throw new Fault('open', place + (CAUSES[error.code] ?? ''));
    });
    return contentOf(blocksOf(file), place).finally(() => promisify(close)(file));
  },

  /** Puts bytes to the standard output. */
  put: write,

  /** Tells the standard error. What it doesn't take is lost. */
  tell(text) {
    process.stderr.once('error', () => {});
    process.stderr.write(text);
  },
};

// What the module reports of a refusal.
import { stringOfUtf8 } from './texts.mjs';

/**
 * Takes a message of the module apart: where a refusal is, and what is wrong there, with a NUL between them. A name in the place
 * may contain others. The message is missing or empty if there is nothing to say besides the fault.
 */
export function reported(message) {
  if (message === undefined || message.length === 0) return {};
  const end = message.lastIndexOf(0);
  const [at, detail] = [message.subarray(0, end), message.subarray(end + 1)].map(stringOfUtf8);
  return { at, detail };
}

// The same for `require`.
import bcs = require('./bcs.cjs');

export function loaded(): Promise<bcs.Registry> {
  return bcs.load().then((calls) => calls.registry('{}'));
}

// The kinds of transition of each lock, as the module names them:
// {lock: [{name, says, sketch}, ..]}.

import { lettersOf } from '../src/lib/bytes.js';
import { LOCK_NAMES } from '../src/machine/codes.js';
import { Machine } from '../src/machine/machine.js';

// A name, a sentence and a sketch have fewer bytes.
const ROOM = 1024;

function kindText(machine, lock, kind) {
  machine.lend(ROOM);
  const numbers = [lock, kind, machine.base, ROOM].map(BigInt);
  const length = Number(machine.exports.kind_text(...numbers));
  if (!length) throw new Error(`no text of kind ${kind} of ${LOCK_NAMES[lock]}`);
  return lettersOf(new Uint8Array(machine.exports.memory.buffer, machine.base, length)).letters;
}

function kindsOfLock(machine, lock) {
  const count = Number(machine.exports.kinds(BigInt(lock)));
  return Array.from({ length: count }, (_, kind) => {
    const [name, says, ...sketch] = kindText(machine, lock, kind).split('\n');
    return { name, says, sketch: sketch.join('\n') };
  });
}

export function kindsOf(module) {
  const machine = new Machine(module);
  return Object.fromEntries(LOCK_NAMES.map((name, lock) => [name, kindsOfLock(machine, lock)]));
}

// From which to which number a header's threads and bits go, and the number of a thread. Each is
// put to the module in a line in which nothing else can be wrong.

import { Machine } from '../src/machine/machine.js';

const TRIED = 1000;

export function rangesOf(module) {
  const machine = new Machine(module);
  const range = (lineOf, isMove = false) => {
    const taken = Array.from({ length: TRIED }, (_, number) => number)
      .filter((number) => !machine.stop(lineOf(number), isMove));
    const [least, most] = [taken[0], taken[taken.length - 1]];
    if (taken.length !== most - least + 1) throw new Error(`no range: ${taken.join(' ')}`);
    return [least, most];
  };
  return {
    threads: range((number) => `lock mcs threads ${number}`),
    bits: range((number) => `lock mcs threads 1 bits ${number}`),
    thread: range((number) => `${number} acquire`, true),
  };
}

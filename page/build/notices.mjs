// The notices of others whose code is in the module, as THIRD-PARTY has them: what it says of the
// page, and for the ports the text of each licence, once for all that have it.

import { portsOf } from './module.mjs';

const LINE = `\n${'-'.repeat(80)}\n\n`;
// What the paragraphs above the sections name that are about the page.
const NAMED = ["page's module", 'code of the kit itself'];
// The head of a section: a name and a version.
const HEAD = /(?:^|\n)(?<name>[\w-]+) (?<version>[\d.]+)[^\n]*$/;
const COPYRIGHT = /^Copyright .*$/gm;
// Where a line of a paragraph breaks: a browser breaks it anew.
const BREAK = /(?<!\n)\n(?!\n)/g;

// Each section: its name with the version, and its text.
function sectionsOf(document) {
  const parts = document.split(LINE);
  return parts.slice(0, -1).map((before, at) => {
    const { name, version } = before.match(HEAD)?.groups ?? {};
    const text = parts[at + 1].replace(/\n\n\n[^\n]*$/, '');
    return { name, title: `${name} ${version}`, text };
  });
}

// The texts without their lines of copyright, each with the titles above it.
function licencesOf(sections) {
  const texts = new Map();
  for (const { title, text } of sections) {
    const words = text.replace(COPYRIGHT, '').trim().replace(BREAK, ' ');
    const owners = text.match(COPYRIGHT) ?? [];
    const titles = texts.get(words) ?? [];
    texts.set(words, [...titles, [title, ...owners].join('\n')]);
  }
  return [...texts].map(([words, titles]) => `${titles.join('\n')}\n\n${words}`);
}

// The paragraphs above the sections that are about the page.
const headOf = (document) => document.split(LINE)[0].split('\n\n')
  .map((part) => part.trim().replace(BREAK, ' '))
  .filter((part) => NAMED.some((name) => part.includes(name)));

// As text in HTML.
export function noticesOf(document) {
  const [head, all] = [headOf(document), sectionsOf(document)];
  const sections = portsOf().map((port) => all.find(({ name }) => name === port));
  const absent = NAMED.find((name) => !head.join(' ').includes(name))
    ?? portsOf().find((_, at) => !sections[at]);
  if (absent) throw new Error(`THIRD-PARTY: nothing on ${absent}`);
  return [...head, ...licencesOf(sections)].join('\n\n')
    .replaceAll('&', '&amp;').replaceAll('<', '&lt;');
}

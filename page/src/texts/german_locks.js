// The page's words on each lock, in German, by the names of the English sentences.

export const germanLocks = {
  ticket: {
    title: 'Ticket-Sperre', memory: 'Speicher: wer welches Ticket hat',
    next: 'nächstes', strip: 'Tickets in der Reihenfolge der Schlange',
    wraps: 'Nach {found} kommt {left}: Die Zahlen beginnen wieder bei 0.',
    captions: {
      nobody: 'Kein Ticket ist vergeben.',
      queue: 'Ticket {serving} ist an der Reihe.',
      wraps: 'Die Tickets haben wieder bei 0 begonnen: {first} kommt vor {last} dran.',
    },
  },
  mcs: {
    title: 'MCS-Sperre', memory: 'Speicher, in der Reihenfolge der Schlange',
    noLink: 'fehlt', atRest: (who) => `In Ruhe: ${who}`,
    captions: {
      nobody: 'Die Schlange ist leer.', alone: '{first} ist allein in der Schlange.',
      linked: 'Jeder Link der Schlange ist geschrieben.',
      missing: 'Nach {before} kommt {after}, und nur {after} weiß es.',
    },
  },
  readWrite: {
    memory: 'Speicher, und daneben die Threads', inside: 'drinnen', nobody: 'niemand',
    atMonitor: 'am Monitor', pollFailed: 'vergebliche Abfrage',
    wants: {
      TryRead: 'möchte lesen', LeaveRead: 'möchte aufhören zu lesen', TryWrite: 'möchte schreiben',
      AwaitReaders: 'angekündigt, wartet auf Leser', LeaveWrite: 'möchte aufhören zu schreiben',
      TryDowngrade: 'möchte Leser werden',
    },
    captions: {
      readers: '{readers} drinnen, {words}.', writer: '{writer} schreibt, {words}.',
      nobody: 'Niemand ist drinnen, {words}.',
    },
  },
  rwSimple: {
    title: 'Einfache Schreib-Lese-Sperre',
  },
  rwFifo: {
    title: 'FIFO-Schreib-Lese-Sperre',
    announced: '{writer} ist angekündigt: kein Leser darf vorbei.',
    wraps: 'Nach {found} kommt {left}: Der Zähler beginnt wieder bei 0.',
  },
};

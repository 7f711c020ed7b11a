// The sentences on the kinds of transition, in German, by the kinds' names. The places are those of
// the English ones, which the module gives.

const CALLS = {
  'rlock: called': '{who} ruft rlock auf und möchte lesen',
  'runlock: called': '{who} ruft runlock auf und liest noch',
  'wlock: called': '{who} ruft wlock auf und möchte schreiben',
  'wunlock: called': '{who} ruft wunlock auf und schreibt noch',
  'downgrade: called': '{who} ruft downgrade auf und schreibt noch',
};
const QUEUE_CALLS = {
  'acquire: called': '{who} ruft acquire auf; ein Aufruf ändert kein Wort',
  'release: called': '{who} ruft release auf und hält die Sperre noch',
};
const FLAG = {
  'rlock: poll with a writer': '{who} fragt ab und wartet: Das flag ist gesetzt',
  'wunlock: left': '{who} löscht das flag und hat die Sperre verlassen',
};

export const germanKinds = {
  ticket: {
    ...QUEUE_CALLS,
    'acquire: took a ticket': '{who} zieht Ticket {found} und ist von hier an in der Schlange; '
      + 'next_ticket ist nun {left}',
    'acquire: entered': '{who} findet das eigene Ticket, {found}, in now_serving und tritt ein',
    'acquire: poll before its turn': '{who} fragt ab und wartet: now_serving ist {found}, das '
      + 'eigene Ticket {number}',
    'release: read the ticket served': '{who} liest now_serving, um die Sperre weiterzugeben: Es '
      + 'ist {found}',
    'release: served the next ticket': '{who} schreibt {left} in now_serving und hat die Sperre '
      + 'verlassen',
  },
  mcs: {
    ...QUEUE_CALLS,
    'acquire: cleared its next': '{who} schreibt nil in das eigene next',
    'acquire: entered without waiting': '{who} tauscht tail gegen den eigenen Record und '
      + 'findet nil: {who} tritt ein',
    'acquire: joined the queue': '{who} tauscht tail aus und findet {finds}; von hier an ist '
      + '{who} in der Schlange, doch kein Wort im Record von {finds} sagt es',
    'acquire: set its locked': '{who} setzt das eigene locked auf 1, vor dem Link',
    'acquire: linked itself': '{who} schreibt den Link: next von {other} zeigt jetzt auf {who}',
    'acquire: poll of a missing grant': '{who} fragt das eigene locked ab und wartet: Es ist noch '
      + '{found}',
    'acquire: entered after waiting': '{who} findet {found} im eigenen locked und tritt ein',
    'release: found no link': '{who} sucht einen Nachfolger: Das eigene next ist nil',
    'release: found a link': '{who} sucht einen Nachfolger und findet {finds}',
    'release: successful compare-and-swap': 'tail ist noch {who}: Das compare-and-swap setzt es '
      + 'auf nil, und {who} hat die Sperre verlassen',
    'release: failed compare-and-swap': 'das compare-and-swap scheitert: tail ist {finds}; {who} '
      + 'hat einen Nachfolger und hat noch nicht gesehen, wer es ist',
    'release: poll of a missing link': '{who} fragt das eigene next ab und wartet auf den Link: '
      + 'Es ist noch nil',
    'release: found a late link': 'der Link ist da: {who} findet {finds}',
    'release: granted the lock': '{who} löscht locked von {other} und hat die Sperre verlassen; '
      + '{other} ist als Nächstes dran und tritt mit der nächsten Abfrage ein',
  },
  'rw-simple': {
    ...CALLS, ...FLAG,
    'rlock: entered': '{who} findet keinen Schreiber und trägt sich ein: readers ist nun {readers}',
    'runlock: left': '{who} trägt sich aus und hat die Sperre verlassen: readers ist nun '
      + '{readers}',
    'wlock: entered': '{who} findet keinen Leser und das flag gelöscht, setzt es und schreibt',
    'wlock: poll of a taken lock': '{who} fragt ab und wartet: readers ist {readers}, und das '
      + 'flag ist {flag}; beide müssen 0 sein',
    'downgrade: entered': '{who} wird in einem Abschnitt zum Leser: readers ist nun {readers}, '
      + 'und das flag ist gelöscht',
  },
  'rw-fifo': {
    ...CALLS, ...FLAG,
    'rlock: entered': '{who} findet das flag gelöscht und trägt sich ein: readAcquires ist nun '
      + '{readAcquires}',
    'runlock: left': '{who} trägt sich aus und hat die Sperre verlassen: readReleases ist nun '
      + '{readReleases}',
    'wlock: entered without waiting': '{who} setzt das flag, findet die Zähler gleich und '
      + 'schreibt',
    'wlock: poll of a taken lock': '{who} fragt ab und wartet: Das flag ist gesetzt; {who} ist '
      + 'nicht in der Schlange',
    'downgrade: entered': '{who} wird in einem Abschnitt zum Leser: readAcquires ist nun '
      + '{readAcquires}, und das flag ist gelöscht',
    'wlock: announced itself': '{who} setzt das flag und ist damit angekündigt: Vor {who} kommt '
      + 'kein Leser mehr hinein; die Zähler sind {readAcquires} und {readReleases}, also wartet '
      + '{who} auf die Leser',
    'wlock: poll with readers inside': '{who} fragt ab und wartet: Die Zähler sind '
      + '{readAcquires} und {readReleases}, es sind also Leser drinnen',
    'wlock: entered after the readers': '{who} findet die Zähler gleich, {readAcquires} und '
      + '{readReleases}: Kein Leser ist drinnen, und {who} schreibt',
  },
};

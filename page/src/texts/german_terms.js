// Terms of art and what they mean, in German, and the other forms of each term.

export const germanTerms = {
  Zug: 'ein Aufruf oder ein Schritt: eine Zeile eines Ablaufs',
  Aufruf: 'ein Zug, mit dem ein Thread eine Operation beginnt; kein Wort ändert sich',
  Schritt: 'eine atomare Operation eines Threads auf einem Wort, oder ein Abschnitt',
  Wort: 'eine Variable im gemeinsamen Speicher, die jeder Schritt unteilbar liest oder '
    + 'schreibt',
  Abfrage: 'ein Schritt, mit dem ein Thread nachsieht, ob er weitergehen darf',
  'vergebliche Abfrage': 'ein Schritt, der findet, dass sein Thread warten muss',
  Halter: 'der Thread, der eine Sperre betreten und noch nicht verlassen hat; bei einer '
    + 'Schreib-Lese-Sperre können es mehrere Leser sein',
  Schlange: 'die Anfragen einer Ticket- oder MCS-Sperre, die älteste zuerst; wer die Sperre hält, '
    + 'ist ihr Kopf. Bei einer FIFO-Schreib-Lese-Sperre ist es der angekündigte Schreiber, bei '
    + 'einer einfachen ist sie immer leer',
  Record: 'bei MCS: next und locked eines Threads',
  Link: 'das write, mit dem sich ein Thread in das next seines Vorgängers einträgt',
  'später Link': 'ein Link, der erst geschrieben wird, nachdem der Vorgänger sein release begonnen '
    + 'hat',
  Abschnitt: 'ein Schritt einer Schreib-Lese-Sperre',
  ankündigen: 'ein FIFO-Schreiber setzt das flag und ist der nächste Schreiber; von da an tritt '
    + 'kein Leser vor ihm ein',
  Linearisierungspunkt: 'der Schritt, mit dem eine Operation für alle Threads wirkt, zwischen '
    + 'ihrem Aufruf und ihrem Ende',
  Sperre: 'Wörter im Speicher, und Regeln, nach denen ein Thread eintritt, wartet und geht, damit '
    + 'sich Threads nicht stören',
  Thread: 'ein Teil eines Programms, der neben anderen läuft, mit demselben Speicher',
  atomar: 'in einem Stück: Kein anderer Thread kommt dazwischen',
  add: 'ein atomarer Schritt, der ein Wort liest und um 1 größer zurückschreibt (fetch-and-add)',
  swap: 'ein atomarer Schritt, der ein Wort liest und einen anderen Wert hineinschreibt',
  'compare-and-swap': 'ein atomarer Schritt, der ein Wort nur schreibt, wenn es den Wert hat, den '
    + 'der Thread erwartet (cas)',
  nil: 'kein Record',
  Monitor: 'lässt immer nur einen Thread einen Abschnitt tun',
};

export const germanForms = {
  Zug: 'Züge, Zügen, Zugs, Zuges', Aufruf: 'Aufrufe, Aufrufen, Aufrufs',
  Schritt: 'Schritte, Schritten, Schritts, Schrittes', Wort: 'Wörter, Wörtern, Worts, Wortes',
  Abfrage: 'Abfragen, fragt ab, abfragt',
  'vergebliche Abfrage': 'vergebliche Abfragen, vergeblichen Abfrage, vergeblichen Abfragen, '
    + 'vergeblicher Abfrage',
  Halter: 'hält, halten', Record: 'Records', Link: 'verknüpft',
  'später Link': 'späte Link, späten Link',
  Abschnitt: 'Abschnitte, Abschnitten, Abschnitts, Abschnittes',
  Sperre: 'Sperren', Thread: 'Threads', atomar: 'atomare, atomaren, atomarer, atomarem',
  swap: 'swaps',
  ankündigen: 'ankündigt, angekündigt, angekündigte, angekündigten, angekündigter',
};

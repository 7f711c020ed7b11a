// What is said of a trace, in German, by the names of the English.

export const germanTraces = {
  opened: 'Das ist ein Trace. Bei jedem Zug steht, was der aufgezeichnete Lauf fand und was die '
    + 'Sperre hat.',
  differs: (line) => `Das ist ein Trace. In Zeile ${line} weicht er von der Sperre ab.`,
  agrees: 'Jedes Wort, jeder Wert und jedes Ergebnis, die der Trace nennt, sind die der Sperre.',
  ending: (said) => `Aber der Recorder sagt: ${said}.`,
  recorded: 'Aufgezeichnet', here: 'Sperre hier',
  spokenSame: 'Der aufgezeichnete Lauf hat dasselbe.',
  FoundOther: 'Der aufgezeichnete Lauf: {step} {word} fand {given}. Die Sperre hier: fand {own}.',
  LeftOther: 'Der aufgezeichnete Lauf: {step} {word} schrieb {given}. Die Sperre hier: schrieb '
    + '{own}.',
  OtherWord: 'Der aufgezeichnete Lauf: {step} auf {given}. Die Sperre hier: {step} auf {own}.',
  WroteOther: 'Der aufgezeichnete Lauf: {step} {word} {given}. Die Sperre hier: {own}.',
  CountNotAbove: 'Der aufgezeichnete Lauf: section {given}, nach section {own}. Die Nummern der '
    + 'Abschnitte wachsen.',
  OtherOutcome: 'Der aufgezeichnete Lauf: {step} {given}. Die Sperre hier: {own}.',
  wrote: '{Thread} hat {word} zuletzt geschrieben, in Zeile {line}: den Wert {value}.',
  unwritten: 'Niemand hat {word} bisher geschrieben: es hat den ersten Wert, {value}.',
  code: 'Der Schritt ist Zeile {number} des Codes: „{code}“.',
  from: 'Zeile {line} schreibt dort {given}: vielleicht ist dieses Schreiben zu spät notiert.',
  until: 'Das Wort hatte {given} bis Zeile {line}: vielleicht ist dieses {step} zu spät notiert.',
  halves: 'Das Wort hatte {given} bis Zeile {line}: vielleicht war dieses {step} ein Lesen und ein '
    + 'Schreiben, oder es ist zu spät notiert.',
  never: 'Keine andere Zeile schreibt dort {given}: vielleicht fehlt im Trace ein Schreiben.',
  swapped: 'Zeile {line} ist auf {own}: vielleicht sind beide Schritte vertauscht.',
  missing: 'Davor fehlt vielleicht ein Schritt auf {own}, oder dieser ist auf dem falschen Wort.',
  sections: 'Vielleicht fehlt davor ein Abschnitt, oder zwei sind vertauscht.',
  counts: 'Vielleicht wird die Nummer außerhalb des Monitors genommen, oder zwei Zeilen sind '
    + 'vertauscht.',
};

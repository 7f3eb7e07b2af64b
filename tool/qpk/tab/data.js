// Makes the data of the page of connections, as qpk report does: what is wrong, the numbers, and the events.
'use strict';

const LEGEND = {
  static: 'in the static table',
  dynamic: 'in the dynamic table',
  'static-name': 'name in the static table, value spelled out',
  'dynamic-name': 'name in the dynamic table, value spelled out',
  literal: 'spelled out',
};

class DataMaker {
  // What reads a recording has show, check, and encode if it can: see reader.js.
  constructor(reader) { Object.assign(this, {reader, texts: new Texts(), fields: new Fields(), connections: []}); }

  // Adds a connection: {name, text, lines, packets, streams, seen}.
  async add(connection) {
    const {reader, texts} = this, {text} = connection;
    const [faults, verdict] = judged(connection, await reader.check(text));
    const columns = new Columns(texts, new Set(faults.map(it => it.line)), connection.packets), count = new Count();
    const reading = new Reading(await reader.show(text), piecesOf(text), this.fields);
    for (const event of reading.events()) {
      count.take(event);
      columns.take(event);
    }
    const trace = columns.finish(), finder = new Finder(columns.events);
    this.connections.push({
      name: connection.name,
      verdict,
      faults: faults.map(it => ({...it, event: finder.find(it)?.number ?? null})),
      left_out: leftOut(columns, verdict.certain + verdict.explained),
      directions: await count.data(reading, reader.encode),
      trace,
    });
  }

  finish() { return {connections: this.connections, legend: LEGEND, ...this.texts.data()}; }
}

// Returns what the page does not show, as there is too much of it.
function leftOut(columns, faults) {
  const shown = columns.rows.length, events = columns.numberOfEvents, found = [];
  if (shown < events) {
    found.push(
      `This page shows the first ${shown} of ${events} events, and the tables up to there, as a page has room for no ` +
      'more. The numbers are those of all events. qpk show prints each event.');
  }
  if (faults > MOST_FAULTS)
    found.push(`This page lists the first ${MOST_FAULTS} of ${faults} faults. qpk check prints each fault.`);
  return found;
}

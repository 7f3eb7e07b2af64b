// The events of a connection in words, as qpk show prints them.

const ANSWERS = {
  a: 'acknowledge stream',
  x: 'cancel stream',
  n: 'increment'
};

function spaced(hex) { return hex.replace(/[()]/g, '').replace(/../g, '$& ').trim(); }

function titleOf(connection, event) {
  const row = connection.events[event], [kind, , place, value] = row;
  switch (kind) {
    case 't': return row[2];
    case 'c': return `encoder ${place}: set capacity ${value}`;
    case 'i': return `encoder ${place}: insert${nameOf(connection, event)} as entry ${entryOf(connection, event)}`;
    case 'd': {
      const named = connection.referencedBy(event);
      return `encoder ${place}: duplicate ${value} (entry ${named}) as entry ${entryOf(connection, event)}`;
    }
    case 's': return `section ${place}: ${sectionOf(row)}`;
    case 'b': return `section ${place}: blocked until insertion ${value}`;
    default: return `decoder ${place}: ${ANSWERS[kind]} ${value}`;
  }
}

function nameOf(connection, event) {
  const name = connection.events[event][3];
  if (name === NONE) return '';
  if (name >= 0) return ` with the name of static ${name}`;
  const relative = -2 - name;
  return ` with the name of dynamic ${relative} (entry ${connection.referencedBy(event)})`;
}

function sectionOf([, , , required, base, , arrival]) {
  if (required < 0) return 'refused';
  return `${arrival === undefined ? '' : 'unblocked, '}required insert count ${required}, base ${base}`;
}

// The entry that an insertion inserts.
function entryOf(connection, event) { return connection.encoders[connection.direction(event)].at(event).inserted; }

// The field that an insertion inserts, or nothing.
function fieldOf(connection, event) {
  const [kind, , , , field] = connection.events[event];
  return kind === 'i' || kind === 'd' ? connection.fields[field] : '';
}

function placeOf(connection, event) {
  const end = connection.end(event), packet = connection.packet(event), time = connection.time(event);
  return [`line ${connection.line(event)}`, packet === null ? '' : `packet ${packet}`, time, end].filter(it => it).join(', ');
}

function textOfFault({fault, rfc9204, rfc9114, code, code_name: name, cause, perhaps}) {
  const ends = code === undefined ? '' : `; 0x0${code.toString(16)} ${name}`;
  const rule = rfc9204 === undefined ? `RFC 9114, section ${rfc9114}` : `RFC 9204, section ${rfc9204}`;
  return `${perhaps ? 'perhaps: ' : ''}${fault} [${rule}${ends}]; likely cause: ${cause}`;
}

function counted(number, one, more = one + 's') { return `${number.toLocaleString('en')} ${number === 1 ? one : more}`; }

// A span of the waterfall's axis: seconds, or lines of the recording.
function spanText(connection, span) {
  if (!connection.hasTimes) return counted(span, 'line');
  return span < 1 ? `${(1000 * span).toFixed(span < 0.01 ? 1 : 0)} ms` : `${span.toFixed(2)} s`;
}

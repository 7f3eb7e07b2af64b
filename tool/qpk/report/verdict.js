// The verdict of all connections, worst first, and what was found on one.

const STATES = {
  wrong: {sign: '✕', rank: 0},
  perhaps: {sign: '?', rank: 1},
  lacking: {sign: '?', rank: 2}, // nothing is found, and the file has not all of the connection
  right: {sign: '✓', rank: 3},
};
const MOST_NAMED = 6; // connections, and findings, that are listed before the others are asked for

function stateOf({verdict: {certain, explained, lacks}}) {
  return certain ? 'wrong' : explained ? 'perhaps' : lacks ? 'lacking' : 'right';
}

function verdictText({verdict: {certain, explained, lacks}}) {
  if (!certain && !explained) return lacks ? 'Nothing is found, and not all could be read' : 'Nothing is wrong';
  const parts = [
    certain ? counted(certain, 'finding') : '',
    explained ? `${counted(explained, 'finding')} that what is missing may explain` : ''
  ];
  return parts.filter(it => it).join(', ');
}

function sign(state) {
  const made = element('span', 'sign ' + state, STATES[state].sign);
  made.setAttribute('aria-hidden', 'true');
  return made;
}

// The connections in the order of their verdicts.
function worstFirst(connections) {
  return connections.map((connection, number) => ({connection, number, state: stateOf(connection)}))
    .sort((one, other) => STATES[one.state].rank - STATES[other.state].rank || one.number - other.number);
}

// The line at the top: what is wrong on all connections together, and of several on which one, with its first fault.
function summary(ranked) {
  const {state, connection} = ranked[0], all = ranked.length;
  if (all === 1) return element('p', 'summary ' + state, sign(state), verdictText(connection) + ' on this connection.');
  const worse = ranked.filter(it => it.connection.faults.length).length, {certain, explained} = connection.verdict;
  const worst = connection.faults.find(it => !it.perhaps) ?? connection.faults[0], rest = certain + explained - 1;
  const more = rest ? `, and ${counted(rest, 'more finding')}` : '';
  const made = text => element('p', 'summary ' + state, sign(state), text);
  if (worst) {
    const where = `${worst.perhaps ? 'Perhaps on' : 'On'} ${connection.name}`;
    return made(`${where}: ${worst.fault}${more}. Findings on ${worse} of ${all} connections.`);
  }
  if (state === 'right') return made(`Nothing is wrong on ${all} connections.`);
  const unread = ranked.filter(it => it.state === state).length;
  return made(`Nothing is found on ${all} connections, of which not all of ${unread} could be read.`);
}

// A button for each connection, worst first.
function connectionList(ranked, onChoose) {
  const item = ({connection, number, state}) => {
    const parts =
      [sign(state), element('span', 'name', connection.name), ' ', element('span', 'said', verdictText(connection))];
    const button = makeButton('connection', parts, () => onChoose(number));
    button.dataset.number = number;
    return element('li', '', button);
  };
  const made = element('ul', 'connections', ...ranked.slice(0, MOST_NAMED).map(item)), rest = ranked.slice(MOST_NAMED);
  if (rest.length) {
    const more = makeButton('more', [`Show ${counted(rest.length, 'more connection')}`], () => {
      more.parentElement.remove();
      made.append(...rest.map(item));
    });
    made.append(element('li', '', more));
  }
  return made;
}

// What was found on a connection, and what the file lacks.
function findings({connection, details}) {
  const {verdict, faults, left_out: leftOut} = connection, made = element('div', 'faults');
  if (verdict.seen) made.append(element('p', verdict.lacks ? 'seen lacks' : 'seen', verdict.seen));
  made.append(...leftOut.map(text => element('p', 'left-out', text)));
  const item = fault => {
    const parts = [`line ${fault.line}`, fault.packet && `packet ${fault.packet}`, fault.time, fault.from];
    const place = parts.filter(it => it).join(', ');
    return element(
      'li', fault.perhaps ? 'perhaps' : 'wrong', fault.event === null ? place : details.link(fault.event, place), ': ',
      textOfFault(fault));
  };
  if (faults.length) made.append(element('ol', '', ...faults.slice(0, MOST_NAMED).map(item)));
  if (faults.length > MOST_NAMED) {
    const more = makeButton('more', [`Show ${counted(faults.length - MOST_NAMED, 'more finding')}`], () => {
      more.previousElementSibling.append(...faults.slice(MOST_NAMED).map(item));
      more.remove();
    });
    made.append(more);
  }
  return made;
}

// The list of all events, in the order in which they came.

const TIMELINE = [
  {
    key: 'line',
    text: 'Line',
    className: 'number',
    width: '4.5em',
    cell: (connection, event) => String(connection.line(event))
  },
  {
    key: 'packet',
    text: 'Packet',
    className: 'number wide',
    width: '4.5em',
    isWide: true,
    isThere: ({packets}) => packets,
    cell: (connection, event) => String(connection.packet(event) ?? '')
  },
  {
    key: 'time',
    text: 'Time',
    className: 'number wide',
    width: '6.5em',
    isWide: true,
    isThere: ({times}) => times,
    cell: (connection, event) => connection.time(event)
  },
  {
    key: 'end',
    text: 'From',
    className: 'text wide',
    width: '4.5em',
    isWide: true,
    isThere: ({encoders}) => encoders.length > 1,
    cell: (connection, event) => connection.end(event)
  },
  {key: 'what', text: 'What', className: 'text', width: 'minmax(12em, 3fr)', narrow: '1fr', cell: titleOf},
  {key: 'field', text: 'Field', className: 'text wide', width: 'minmax(6em, 2fr)', isWide: true, cell: fieldOf},
  {key: 'bytes', text: 'Bytes', className: 'number', width: '4em', cell: ({sizes}, event) => String(sizes[event])},
];

function makeTimeline(connection, {onChoose, onOpen}) {
  const columns = TIMELINE.filter(({isThere}) => !isThere || isThere(connection)).map(({key, ...column}) => ({...column}));
  return new List({
    name: 'timeline',
    columns,
    onChoose,
    onOpen,
    cells: event => columns.map(({cell}) => cell(connection, event)),
    classOf:
      event => [connection.stateOf(event), connection.events[event][0] === 'b' ? 'waiting' : '', connection.end(event)].join(
        ' '),
  });
}

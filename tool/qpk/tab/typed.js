// What is typed: fields as their bytes, and bytes as their fields and their bits, without a dynamic table. The program does it, or without
// it JavaScript, which writes indexes of the static table and literals without Huffman's code.
'use strict';

const MOST_TYPED = 1 << 16; // characters

// Returns the fields of lines, as names and values. A colon parts the two, but for the one that a name may begin with.
function typedFields(text) {
  return text.split('\n').filter(line => line.trim()).map((line, at) => {
    const found = /^(:?[^:]*):[ \t]?(.*)$/.exec(line.replace(/\r$/, ''));
    if (!found) throw new Refusal(`line ${at + 1} has no colon: write a name, a colon and a value, as accept: */*`);
    return found.slice(1);
  });
}

// Returns the digits of bytes that were typed, with blanks and colons or not.
function typedHex(text) {
  const digits = text.replace(/0x|[\s:]/gi, '');
  if (!isHex(digits)) throw new Refusal('these are not whole bytes in hexadecimal: write two digits for each byte');
  return digits.toLowerCase();
}

class TypedByProgram {
  constructor(qpk) { this.qpk = qpk; }

  // Returns what a run prints. Of one that ends with another status than these, fails with what it says.
  async run(words, input, statuses = [0]) {
    const {status, output, error} = await this.qpk.run(words, input);
    if (!statuses.includes(status)) throw new Refusal(decoder.decode(error).trim().replace(/^qpk: /, ''));
    return decoder.decode(output).trimEnd();
  }

  encode(fields) { return this.run(['encode'], fields.map(([name, value]) => `${name}\t${value}\n`).join('')); }

  explain(hex) { return this.run(['explain', hex], '', [0, 2]); }

  async decode(hex) {
    const printed = await this.run(['decode', '--json', String(MOST_TYPED * 64)], hex);
    const shown = it => typeof it === 'string' ? it : `(${it.hex})`;
    return JSON.parse(printed).fields.map(it => `${shown(it.name)}: ${shown(it.value)}`).join('\n');
  }
}

class TypedByScript {
  encode(fields) {
    return toHex(joined([Uint8Array.of(0, 0), ...fields.map(it => this.line(...it.map(part => encoder.encode(part))))]));
  }

  // Returns the line of a field (RFC 9204, section 4.5).
  line(name, value) {
    const [named, valued] = [name, value].map(it => String.fromCharCode(...it));
    const whole = STATIC_TABLE.findIndex(it => it[0] === named && it[1] === valued),
          index = STATIC_TABLE.findIndex(it => it[0] === named);
    if (whole >= 0) return this.integer(0xc0, 6, whole);
    const front = index >= 0 ? [this.integer(0x50, 4, index)] : [this.integer(0x20, 3, name.length), name];
    return joined([...front, this.integer(0, 7, value.length), value]);
  }

  // Returns an integer after the first bits of its byte (section 4.1.1).
  integer(first, bits, number) {
    const most = 2 ** bits - 1, bytes = [first + Math.min(number, most)];
    if (number < most) return Uint8Array.from(bytes);
    for (number -= most; number >= 128; number = Math.floor(number / 128)) bytes.push(number % 128 + 128);
    return Uint8Array.from([...bytes, number]);
  }

  // Returns each line of a section: the offset, the bytes, and how it has its field.
  explain(hex) {
    const rows = [], end = this.read(hex, (offset, at, line) => {
      const bytes = Array.from(hex.slice(2 * offset, 2 * at).matchAll(/../g)).join(' ');
      rows.push(`${String(offset).padStart(4)}  ${bytes}  ${line}`);
    });
    return [...rows, ...(end ? [`not read: ${end}`] : [])].join('\n');
  }

  decode(hex) {
    const fields = [], end = this.read(hex, (_, __, line, field) => {
      if (field) fields.push(field);
    });
    if (end) throw new Refusal(end);
    return fields.join('\n');
  }

  // Reads a section, and passes on its prefix and each line. Returns why it is read no further, or nothing.
  read(hex, take) {
    const reader = new StrictReader(fromHex(hex)), direction = new ScriptDirection();
    try {
      const {required, base} = direction.prefix(reader);
      take(0, reader.at, `required insert count ${required}, base ${base}`);
      for (let begin = reader.at; !reader.isAtEnd; begin = reader.at) {
        const {form, ...parts} = direction.line(reader, base);
        const [name, value] = [parts.name, parts.value].map(it => shownText(Uint8Array.from(it, sign => sign.charCodeAt(0))));
        take(begin, reader.at, `${shownForm(form)}, ${name}: ${value}`, `${name}: ${value}`);
      }
      return '';
    } catch (error) {
      if (error !== CUT && !(error instanceof Refusal)) throw error;
      return error.message;
    }
  }
}

// Returns the bytes, the fields and the bits of what was typed: fields, or bytes.
async function readTyped({fields, hex, module}) {
  if ((fields ?? hex).length > MOST_TYPED) throw new Refusal(`it is longer than ${MOST_TYPED} characters: type less`);
  const typed = module ? new TypedByProgram(await loadOnce(module)) : new TypedByScript();
  const digits = fields === undefined ? typedHex(hex) : await typed.encode(typedFields(fields));
  const found = {hex: digits, bits: await typed.explain(digits)};
  if (fields !== undefined) return found;
  try {
    return {...found, fields: await typed.decode(digits)};
  } catch (error) {
    if (error instanceof Refusal) return {...found, fields: '', fault: error.message};
    throw error;
  }
}

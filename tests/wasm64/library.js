// Sends lists of fields through both ends of dist/wasm64.wasm, by its exports, as a page does that uses the library. A
// pointer and a size are a BigInt, and a struct that C returns is stored where the first argument says. The structs are
// laid out as c/tests/layout.txt has them.
'use strict';

const VERSION = 2; // H3_QPACK_VERSION
const ROOM = 1n << 16n; // for a section, for a stream, and for the texts of a list
const NV = 40, FIELD = 24; // bytes of a h3_qpack_nv and of a h3_qpack_field

// Returns the lists of a text of lines, a field each, with an empty line between lists.
function readLists(text) {
  return text.split('\n\n')
    .map(list => list.split('\n').filter(line => line.includes('\t')).map(line => line.split('\t')))
    .filter(list => list.length);
}

class Library {
  constructor(exports) {
    this.exports = exports;
    this.result = this.take(48n);
    [this.section, this.stream, this.texts, this.fields] = Array.from({length: 4}, () => this.take(ROOM));
  }

  take(len) {
    const at = this.exports.malloc(len);
    if (!at) throw new Error('no memory');
    return at;
  }

  view(at) { return new DataView(this.exports.memory.buffer, Number(at)); }

  bytes(at, len) { return new Uint8Array(this.exports.memory.buffer, Number(at), Number(len)); }

  // Calls what returns a struct that begins with a status. Returns the number of 64 bits at an offset of it.
  call(name, offset, ...words) {
    this.exports[name](this.result, ...words);
    const status = this.view(this.result).getInt32(0, true);
    if (status) throw new Error(`${name}: status ${status}`);
    return this.view(this.result).getBigUint64(offset, true);
  }

  // Makes an end with a table of 4,096 bytes and 16 streams that may be blocked.
  open(kind) {
    const settings = this.take(40n), end = this.take(8n);
    this.exports[`h3_qpack_${kind}_settings_default_versioned`](VERSION, settings);
    this.view(settings).setBigUint64(0, 4096n, true);
    this.view(settings).setBigUint64(8, 16n, true);
    const status = this.exports[`h3_qpack_${kind}_new_versioned`](end, VERSION, settings);
    if (status) throw new Error(`no ${kind}: status ${status}`);
    this.exports.free(settings);
    return end;
  }

  // Stores fields with their texts, and returns where the first field is.
  store(list) {
    let at = this.texts;
    list.flat().forEach((text, i) => {
      const encoded = new TextEncoder().encode(text);
      this.bytes(at, encoded.length).set(encoded);
      const field = this.view(this.fields + BigInt(NV * (i >> 1)));
      field.setBigUint64(16 * (i % 2), at, true);
      field.setBigUint64(16 * (i % 2) + 8, BigInt(encoded.length), true);
      if (i % 2) field.setUint8(32, 0);
      at += BigInt(encoded.length);
    });
    return this.fields;
  }

  // Returns the fields that were decoded, so many.
  load(decoder, count) {
    this.call('h3_qpack_decoder_fields', 8, decoder, this.fields, count, this.texts, ROOM);
    let at = this.texts;
    const next = len => new TextDecoder().decode(this.bytes((at += len) - len, len));
    return Array.from({length: Number(count)}, (_, i) => {
      const field = this.view(this.fields + BigInt(FIELD * i));
      return [next(field.getBigUint64(8, true)), next(field.getBigUint64(16, true))];
    });
  }
}

// Returns a line of what was sent. Fails at the first list that does not arrive as it was.
async function sendLists(bytes, corpus) {
  const {instance} = await WebAssembly.instantiate(bytes);
  const library = new Library(instance.exports), {exports, section, stream} = library;
  const encoder = library.open('encoder'), decoder = library.open('decoder');
  const lists = readLists(new TextDecoder().decode(corpus));
  let sent = 0n, inserted = 0n;
  lists.forEach((list, i) => {
    const id = BigInt(4 * i);
    const len =
      library.call('h3_qpack_encoder_encode', 8, encoder, id, library.store(list), BigInt(list.length), section, ROOM);
    const instructions = exports.h3_qpack_encoder_write_encoder(encoder, stream, ROOM);
    library.call('h3_qpack_decoder_read_encoder', 8, decoder, stream, instructions);
    const count = library.call('h3_qpack_decoder_decode', 8, decoder, id, section, len);
    const got = library.load(decoder, count);
    if (JSON.stringify(got) !== JSON.stringify(list)) throw new Error(`list ${i} arrived as ${JSON.stringify(got)}`);
    const answers = exports.h3_qpack_decoder_write_decoder(decoder, stream, ROOM);
    library.call('h3_qpack_encoder_read_decoder', 8, encoder, stream, answers);
    sent += len + instructions;
  });
  inserted = exports.h3_qpack_decoder_get_icnt(decoder);
  if (!inserted || exports.h3_qpack_encoder_get_krcnt(encoder) !== inserted) throw new Error('the table was not used');
  exports.h3_qpack_encoder_del(encoder);
  exports.h3_qpack_decoder_del(decoder);
  return `${lists.length} lists in ${sent} bytes, ${inserted} insertions`;
}

if (typeof module === 'object') module.exports = {sendLists};

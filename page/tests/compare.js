// Compares what the module answers with what the proved program wrote: reports, checks, refusals, replies, audits, whether boards are
// ready, also as JSON, and why something finds what it finds. Where a guest's region stands is compared with what the guest finds as it sizes it, and why
// its access finds what it finds with what it reads. Images of machines are compared with those of the library for C.

import { Engine, run } from '../js/engine.js';
import { joined, same } from './compare_bytes.js';
import { images_hold } from './compare_images.js';
import { ways_astray } from './compare_ways.js';
import { VERBS, is_read, words_in } from '../js/forms.js';
import { capability_list } from '../js/capabilities.js';
import { number_at, read_json } from '../js/report.js';
import { question_at, question_of, read_why, read_why_of_guest } from '../js/why.js';

const to_bytes = text => new TextEncoder().encode(text);
// what an audit writes of a board in order
const NO_PROBLEM = 'audit: ok\n';
// what the program ends with where a board isn't ready, after the text
const NOT_READY = 208;

// A region as its guest's driver finds it: what Command opens, and what the register holds and takes. Null where no region
// begins, as at the upper register of one before it.
function sized(machine, guest, slot, register) {
  const place = offset => `${slot} 0x${offset.toString(16)} 4`, offset = 0x10 + 4 * register;
  const read = at => machine.number(`${guest} cr ${place(at)}`);
  const write = (at, value) => machine.answer(new TextEncoder().encode(`${guest} cw ${place(at)} ${value}`));
  const taken = at => { const old = read(at); write(at, 0xffffffff); const ones = read(at); write(at, old); return ones; };
  const ones = taken(offset), is_wide = number => (taken(0x10 + 4 * number) & 7n) === 4n;
  for (let number = 0; number < register; number += 1) if (is_wide(number) && ++number === register) return null;
  if (ones === 0n || read(0) === 0xffffffffn) return null;
  const space = (ones & 1n) === 1n ? 'io' : 'mem', flags = space === 'io' ? 3n : 15n, wide = is_wide(register);
  const first = (read(offset) & ~flags) + (wide ? read(offset + 4) << 32n : 0n);
  const kept = (ones & ~flags) + ((wide ? taken(offset + 4) : 0xffffffffn) << 32n);
  return { first, size: (~kept & 0xffffffffffffffffn) + 1n, space, open: (read(4) & (space === 'io' ? 1n : 2n)) !== 0n };
}

const in_text = region => (region === null ? 'none' : `${region.space} ${region.first} ${region.size} ${region.open}`);

// Whether all regions of all guests stand where their guests find them.
function regions_hold(engine, machine, board) {
  const guests = new Set([...new TextDecoder().decode(engine.report(board).text).matchAll(/^guest (\S+) /gm)].map(([, name]) => name));
  const slots = [0, 1, 2, 3], registers = [0, 1, 2, 3, 4, 5];
  return [...guests].every(guest => slots.every(slot => registers.every(register => {
    const told = in_text(machine.region(guest, slot, register));
    return told === in_text(sized(machine, guest, slot, register));
  })));
}

// What a line says of a finding: who it is about, each with its register, and where.
const is_told = ({ text, of, address, number }) => of.length > 0 && of.every(({ path, register }) => text.includes(register === null ? path : `${path} ${register}`))
  && text.includes(address === null ? number ?? '' : hexadecimal(address));

// The text of whether a board is ready, or nothing where its values say otherwise: each has its line, and they are counted.
function readiness_of(made) {
  const text = made.readiness(), { problems, lacks } = made.findings(), all = [...problems, ...lacks];
  const counted = (them, words) => them.length === 0 ? [] : [`${them.length} ${words}`];
  const count = [...counted(problems, problems.length === 1 ? 'problem' : 'problems'), ...counted(lacks, 'left to do')].join(', ') || 'ok';
  const is_same = text.endsWith(`ready: ${count}`) && text.split('\n').length === all.length + 1 && all.every(is_told);
  return to_bytes(is_same ? `${text}\n` : '');
}

const to_text = bytes => new TextDecoder().decode(bytes).trimEnd();
const words_of = line => words_in(to_text(line)).map(one => one.word);

// Whether lines tell what JSON does: so many, each with the functions that it names, and their registers.
const are_read = (lines, count) => lines.length === count && lines.every(({ text, of, places }) => [...of, ...places]
  .every(({ path, register }) => text.includes(register === null ? path : `${path} ${register}`)));

// Whether a reply that tells why, if it is one, is read by its JSON.
function firmware_is_told(made, line, reply) {
  const [, , space, place] = words_of(line), text = to_text(reply);
  return !text.startsWith('why: ') || are_read(read_why(made.board_why_json(question_at(space, place).at), text), text.split('\n').length - 1);
}

const hexadecimal = (number, digits = 1) => `0x${number.toString(16).padStart(digits, '0')}`;

// The closed regions of a guest that hold a place, as lines tell them.
function closed_at(machine, { guest, space, place }) {
  const told = (slot, register, region) => `why: slot ${slot} bar${register} at ${hexadecimal(region.first)} size ${hexadecimal(region.size)}: decode is disabled (Command `
    + `${hexadecimal(machine.number(`${guest} cr ${slot} 4 2`), 4)})`;
  return Array.from({ length: 32 }, (_, slot) => [0, 1, 2, 3, 4, 5].flatMap(register => {
    const region = machine.region(guest, slot, register), holds = region?.space === space && region.first <= place && place < region.first + region.size;
    return holds && !region.open ? [told(slot, register, region)] : [];
  })).flat();
}

// Whether what a guest is told of a place is what it read there: what answers gives the reply, and where nothing does the reply is all ones,
// and all that is closed there is told.
function told_as_read(machine, call, width, reply) {
  const lines = machine.why(call).split('\n'), latch = /^why: I\/O 0xcf8: 4-byte accesses go to CONFIG_ADDRESS \((0x[0-9a-f]+)\)$/.exec(lines[0]);
  if (latch && width === '4') return BigInt(latch[1]) === BigInt(reply);
  const nth = lines.findIndex(line => / responds| is empty$|: there is no slot at /.test(line)), rest = lines.slice(nth + 1).join('\n');
  const [, slot, register, offset] = /: slot (\d+) (?:bar(\d)|configuration space) responds at offset (0x[0-9a-f]+)$/.exec(lines[nth]) ?? [];
  if (slot === undefined) return /^0x(?:ff)+$/.test(reply) && rest === (lines[nth].endsWith(': nothing responds') ? closed_at(machine, call).join('\n') : '');
  if (register === undefined) return rest === '' && machine.number(`${call.guest} cr ${slot} ${offset} ${width}`) === BigInt(reply);
  const region = machine.region(call.guest, Number(slot), Number(register));
  return rest === '' && region.open && region.space === call.space && region.first + BigInt(offset) === call.place;
}

// Whether a guest that read a place is told what it found there, as its JSON tells it.
function guest_is_told(machine, line, output) {
  const [who, verb, ...places] = words_of(line), width = places.pop(), [, name, reply] = /^(\S+): (0x[0-9a-f]+)$/.exec(to_text(output)) ?? [];
  if (!is_read(to_text(line)) || name !== who || who === 'host') return true;
  const { call } = question_of(who, VERBS[verb].space, ...places), text = machine.why(call);
  return are_read(read_why_of_guest(machine.why_json(call), text, String), text.split('\n').length) && told_as_read(machine, call, width, reply);
}

// What is told after a script, by the work that is asked.
const AFTER = { audit: made => [to_bytes(made.audit() ?? NO_PROBLEM)], ready: made => [readiness_of(made)], 'ready --json': made => [to_bytes(made.ready_json())],
  run: () => [], firmware: () => [] };
const WRITTEN = { list: (engine, board) => engine.report(board), 'list --json': (engine, board) => engine.report_json(board), check: (engine, board) => engine.check(board) };

// The 256 bytes of a function in words of 4 bytes, by their offsets.
const words_by_offset = bytes => new Map(Array.from({ length: 64 }, (_, nth) => [4 * nth, new DataView(bytes.buffer).getUint32(4 * nth, true)]));

// Whether the page finds in the registers of functions the capability lists that the JSON of their board has.
function lists_hold(engine, board, { functions }) {
  const machine = engine.open(board).made, bytes = new Uint8Array(256), view = new DataView(bytes.buffer);
  const good = functions.every(({ capabilities = [], ...place }) => {
    for (let at = 0; at < 256; at += 4) view.setUint32(at, Number(machine.number(`host cr ${number_at(place)} ${hexadecimal(at)} 4`)), true);
    return capability_list(words_by_offset(bytes)).structures.map(one => one.offset).join() === capabilities.map(({ off }) => off).join();
  });
  machine.close();
  return good;
}

// A case has what is asked, a board and its script, the number that refuses it or 0, and the output.
function holds(engine, one) {
  const { work, board, script, number, output } = one;
  if (work === 'walk') return capability_list(words_by_offset(script)).told === to_text(output);
  if (work === 'image') return images_hold(engine, one);
  if (WRITTEN[work] !== undefined) {
    const written = WRITTEN[work](engine, board);
    const is_same = written.number === number && same(written.text, output);
    return is_same && (work !== 'list --json' || number !== 0 || lists_hold(engine, board, read_json(to_text(output))));
  }
  const { number: refusal, made } = work === 'run' ? engine.open(board) : engine.open_at_reset(board);
  if (made === null) return refusal === number;
  let told = true;
  const replies = run(made, script, (line, reply) => { told &&= firmware_is_told(made, line, reply) && guest_is_told(made, line, reply); });
  const text = joined([...replies, ...AFTER[work](made)]);
  const is_ready = /ready: ok\n$|"lacks":\[\],"problems":\[\]}\n$/.test(new TextDecoder().decode(text));
  const is_on_way = work !== 'audit' || ways_astray(engine, board, made).length === 0;
  const good = told && is_on_way && (work !== 'run' || regions_hold(engine, made, board));
  made.close();
  return good && number === (work.startsWith('ready') && !is_ready ? NOT_READY : 0) && same(text, output);
}

// The names of the cases that differ.
export async function differing(module, cases) {
  const engine = await Engine.of(module);
  return cases.filter(one => !holds(engine, one)).map(({ name }) => name);
}

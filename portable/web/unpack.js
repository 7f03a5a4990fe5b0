// Unpacks LZMA as `build` packs it. The odds of a byte depend on the upper three bits of the byte before (lc = 3), not on its place (lp =
// pb = 0).
"use strict";

const ODDS_BITS = 11, EVEN = 1 << (ODDS_BITS - 1), LEARNS = 5, LEAST_RANGE = 1 << 24;
const STATES = 12, FIRST_AFTER_MATCH = 7;
const LITERAL = 0x300, SLOT_BITS = 6, ALIGN_BITS = 4, LEAST_MATCH = 2;

function evenOdds(count) {
  return new Uint16Array(count).fill(EVEN);
}

/** Reads the packed bits, each by the odds of its place in a table, which learn from it. */
class Bits {
  constructor(packed) {
    this.packed = packed;
    this.at = 5;
    this.range = 2 ** 32 - 1;
    this.code = new DataView(packed.buffer, packed.byteOffset).getUint32(1);
  }

  widen() {
    if (this.range >= LEAST_RANGE) return;
    this.range *= 256;
    this.code = this.code * 256 + this.packed[this.at++];
  }

  next(odds, place) {
    this.widen();
    const bound = (this.range >>> ODDS_BITS) * odds[place];
    if (this.code < bound) {
      this.range = bound;
      odds[place] += ((1 << ODDS_BITS) - odds[place]) >> LEARNS;
      return 0;
    }
    this.range -= bound;
    this.code -= bound;
    odds[place] -= odds[place] >> LEARNS;
    return 1;
  }

  /** Reads a number of this many bits, the highest first. The odds of each bit are at `base` and the bits before it. */
  number(odds, base, count) {
    let it = 1;
    for (let bit = 0; bit < count; bit++) it = (it << 1) | this.next(odds, base + it);
    return it - (1 << count);
  }

  /** Reads the same, the lowest first. */
  reversed(odds, base, count) {
    let it = 1, sum = 0;
    for (let place = 0; place < count; place++) {
      const bit = this.next(odds, base + it);
      it = (it << 1) | bit;
      sum |= bit << place;
    }
    return sum;
  }

  /** Reads a number whose bits are equally likely. */
  plain(count) {
    let it = 0;
    for (let bit = 0; bit < count; bit++) {
      this.widen();
      this.range = Math.floor(this.range / 2);
      const isOne = this.code >= this.range;
      if (isOne) this.code -= this.range;
      it = (it << 1) | Number(isOne);
    }
    return it;
  }
}

/** Reads the lengths of matches. */
class Lengths {
  constructor() {
    this.choice = evenOdds(2);
    this.low = evenOdds(8);
    this.middle = evenOdds(8);
    this.high = evenOdds(256);
  }

  next(bits) {
    if (!bits.next(this.choice, 0)) return bits.number(this.low, 0, 3);
    if (!bits.next(this.choice, 1)) return 8 + bits.number(this.middle, 0, 3);
    return 16 + bits.number(this.high, 0, 8);
  }
}

class Unpacker {
  constructor(packed, length) {
    this.bits = new Bits(packed);
    this.made = new Uint8Array(length);
    this.at = 0;
    this.state = 0;
    this.distances = [0, 0, 0, 0];
    this.literals = evenOdds(LITERAL << 3);
    [this.isMatch, this.isAgain, this.isOlder, this.isThird, this.isFourth, this.isLong] = Array.from({ length: 6 }, () => evenOdds(STATES));
    this.slots = Array.from({ length: 4 }, () => evenOdds(1 << SLOT_BITS));
    this.places = evenOdds(128);
    this.align = evenOdds(1 << ALIGN_BITS);
    [this.lengths, this.lengthsAgain] = [new Lengths(), new Lengths()];
  }

  all() {
    while (this.at < this.made.length) {
      if (!this.bits.next(this.isMatch, this.state)) this.literal();
      else if (this.bits.next(this.isAgain, this.state)) this.again();
      else this.match();
    }
    return this.made;
  }

  literal() {
    const base = ((this.at ? this.made[this.at - 1] : 0) >> 5) * LITERAL;
    let it = 1, match = this.state < FIRST_AFTER_MATCH ? null : this.made[this.at - this.distances[0] - 1];
    while (it < 256) {
      const wanted = match === null ? null : (match >> 7) & 1;
      const bit = this.bits.next(this.literals, base + (wanted === null ? 0 : (1 + wanted) << 8) + it);
      it = (it << 1) | bit;
      match = bit === wanted ? match << 1 : null;
    }
    this.made[this.at++] = it;
    this.state = this.state < 4 ? 0 : this.state - (this.state < 10 ? 3 : 6);
  }

  match() {
    const length = this.lengths.next(this.bits);
    this.distances = [this.distance(length), ...this.distances.slice(0, 3)];
    this.copy(length, 7, 10);
  }

  /** Copies a match at one of the last four distances. */
  again() {
    if (!this.bits.next(this.isOlder, this.state)) {
      if (!this.bits.next(this.isLong, this.state)) return this.copy(1 - LEAST_MATCH, 9, 11);
    } else {
      const which = !this.bits.next(this.isThird, this.state) ? 1 : 2 + this.bits.next(this.isFourth, this.state);
      this.distances.unshift(...this.distances.splice(which, 1));
    }
    this.copy(this.lengthsAgain.next(this.bits), 8, 11);
  }

  distance(length) {
    const slot = this.bits.number(this.slots[Math.min(length, 3)], 0, SLOT_BITS), count = (slot >> 1) - 1;
    if (slot < 4) return slot;
    const start = (2 | (slot & 1)) << count;
    if (slot < 14) return start + this.bits.reversed(this.places, start - slot, count);
    return start + (this.bits.plain(count - ALIGN_BITS) << ALIGN_BITS) + this.bits.reversed(this.align, 0, ALIGN_BITS);
  }

  copy(length, stateAfterLiteral, stateAfterMatch) {
    for (let left = length + LEAST_MATCH; left > 0; left--, this.at++) this.made[this.at] = this.made[this.at - this.distances[0] - 1];
    this.state = this.state < FIRST_AFTER_MATCH ? stateAfterLiteral : stateAfterMatch;
  }
}

/** Returns the bytes that were packed; there are `length` of them. */
function unpack(packed, length) {
  return new Unpacker(packed, length).all();
}

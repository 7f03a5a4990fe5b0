// Shows numbers, sizes and times.

const BILLION = 1_000_000_000n;
const UNITS = ["bytes", "kB", "MB", "GB", "TB"];

function grouped(number) {
  return Number(number).toLocaleString("en");
}

function counted(number, one, many = `${one}s`) {
  return `${grouped(number)} ${Number(number) === 1 ? one : many}`;
}

/** Shows 1234567 as 1.23 MB. */
function bytes(number) {
  let unit = 0, rest = Number(number);
  while (rest >= 999.5 && unit < UNITS.length - 1) {
    rest /= 1000;
    unit++;
  }
  return unit ? `${rest.toPrecision(3)} ${UNITS[unit]}` : counted(number, "byte");
}

/** Shows a rate with three significant digits. */
function rate(text) {
  const number = Number(text);
  return number >= 1000 ? grouped(Math.round(number)) : text;
}

/** Returns the nanoseconds of a text like 1700000000.250000000. */
function nanoseconds(text) {
  const [, sign, whole, fraction] = /^(-?)(\d+)\.(\d{9})$/.exec(text);
  const sum = BigInt(whole) * BILLION + BigInt(fraction);
  return sign ? -sum : sum;
}

function decimal(nanos) {
  const magnitude = nanos < 0n ? -nanos : nanos;
  return `${nanos < 0n ? "-" : ""}${magnitude / BILLION}.${String(magnitude % BILLION).padStart(9, "0")}`;
}

/** Returns a time of day and a date in UTC, or seconds if the calendar has no date for them. */
function utc(nanos) {
  const below = ((nanos % BILLION) + BILLION) % BILLION, seconds = (nanos - below) / BILLION;
  const date = new Date(Number(seconds) * 1000);
  const hasDate = date.getUTCFullYear() >= 0 && date.getUTCFullYear() <= 9999;
  if (!hasDate) return { date: "", time: `${decimal(nanos)} s` };
  const [day, time] = date.toISOString().split("T");
  return { date: day, time: `${time.slice(0, 8)}.${String(below).padStart(9, "0")}` };
}

function utcText(nanos) {
  const { date, time } = utc(nanos);
  return date ? `${date} ${time}` : time;
}

/** Returns the same to a fraction that a reader can take in. */
function shortUtc(nanos) {
  const { date, time } = utc(nanos);
  return date ? `${date} ${time.slice(0, 12)}` : time;
}

/** Shows a length of time: 16777216 is 16.8 ms. */
function span(nanos) {
  const number = Number(nanos);
  for (const [unit, size] of [["s", 1e9], ["ms", 1e6], ["µs", 1e3]]) {
    if (number < size) continue;
    const parts = number / size;
    if (unit !== "s" || parts < 120) return `${Number(parts.toPrecision(3))} ${unit}`;
    return longSpan(parts);
  }
  return `${number} ns`;
}

function longSpan(seconds) {
  const parts = [["d", 86400], ["h", 3600], ["min", 60], ["s", 1]];
  let rest = Math.round(seconds);
  const words = [];
  for (const [unit, size] of parts) {
    const count = Math.floor(rest / size);
    rest -= count * size;
    if (count) words.push(`${grouped(count)} ${unit}`);
  }
  return words.slice(0, 2).join(" ");
}
